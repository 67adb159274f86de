//! A store in plain Rust, with the rows that its files have.
pub mod rows;
pub mod store;
