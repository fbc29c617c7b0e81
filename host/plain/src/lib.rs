//! The message store in plain Rust, written for speed from document 01, of the same strictness as the proved one and on the same
//! bytes: safe, in place, without allocation. It is what the proved store is measured against.
//!
//! Reading order: [`listpack`], [`slip`], [`node`], [`groups`], [`index`], [`image`], [`store`], [`snapshot`], [`reply`]. The functions of
//! [`store`] and [`snapshot`] are the commands; they and those of [`reply`] answer the numbers of the C library.

pub mod groups;
pub mod image;
pub mod index;
pub mod listpack;
pub mod node;
pub mod reply;
pub mod slip;
pub mod snapshot;
pub mod store;

/// Whether all bytes are zero, in one pass that the compiler can widen.
pub(crate) fn all_zero(bytes: &[u8]) -> bool {
    bytes.iter().fold(0, |all, byte| all | byte) == 0
}
