//! Rows of an index and of a change in plain Rust: read, written, tested and made into tables.
pub mod live;
pub mod read;
pub mod rows;
pub mod sound;
pub mod write;
