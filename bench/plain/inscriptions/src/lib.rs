//! Inscriptions in plain Rust: what scripts say, what a transaction reveals, and how it is kept.
pub mod envelope;
pub mod reveal;
pub mod shelf;
