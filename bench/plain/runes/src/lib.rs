//! Runes in plain Rust: what scripts say, what a block does to the ledger, and how names and amounts are written.
pub mod ledger;
pub mod name;
pub mod stone;
