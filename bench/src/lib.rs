//! The gate once more, in plain Rust, and days to try it on.

pub mod days;
pub mod plain;
