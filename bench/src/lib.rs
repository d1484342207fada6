//! The library beside a plain Rust receiver over the same structs and beside the second program's, on the same streams.

#![forbid(unsafe_code)]

pub mod archive;
pub mod machine;
pub mod measure;
pub mod plain;
pub mod receivers;
pub mod rows;
pub mod shares;
pub mod streams;

pub use peers::layout;
