//! Proved integer recognition, the proved listpack reader and writers, the proved node and the proved groups, and plain Rust ones to measure
//! them against.

pub use wallathi_plain::{groups as plain_groups, listpack as plain, node as plain_node};

pub mod proved;
pub mod proved_groups;
