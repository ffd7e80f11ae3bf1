//! Named by lib.rs for its build parameters; the oracle builds no tree by it.
#[derive(Clone, Copy, Debug)]
pub enum PlocSearchDistance {
    Minimum,
    Low,
    Medium,
    High,
}

#[derive(Clone, Copy, Debug)]
pub enum SortPrecision {
    U64,
    U128,
}
