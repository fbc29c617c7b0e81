//! An independent model of the message store: document 01 ("The exact rules") as plain Rust, with
//! the requests of 02.
//!
//! It is written from these papers and from no other definition, so that the proved store can be compared
//! with it. Clarity comes before speed: a strict reader decodes its bytes, encodes the result
//! again and compares. Bytes are accepted exactly when they are the encoding of some value that
//! keeps its rules.
//!
//! Reading order: [`id`], [`decimal`], [`listpack`], [`message`], [`slip`], [`node`], [`groups`],
//! [`ledger`], [`snapshot`], [`image`], [`reply`]; [`index`] stands alone. [`rng`] and [`generate`] make the
//! inputs of random tests.

pub mod bytes;
pub mod decimal;
pub mod generate;
pub mod groups;
pub mod id;
pub mod image;
pub mod index;
pub mod ledger;
pub mod listpack;
pub mod message;
pub mod node;
pub mod refusal;
pub mod reply;
pub mod rng;
pub mod slip;
pub mod snapshot;
