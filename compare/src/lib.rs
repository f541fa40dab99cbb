//! Comparison of two record stores for write-once memory: the C entry under test, and a plain Rust version.

pub mod code;
pub mod foreign;
pub mod plain;
pub mod sample;
