//! Named by lib.rs; the oracle uses nothing of it.
pub struct Triangle;
