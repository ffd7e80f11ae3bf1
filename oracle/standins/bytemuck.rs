//! A stand-in for bytemuck: marker traits, and a vector of default values for `zeroed_vec`.
pub use bytemuck_derive::{Pod, Zeroable};

/// # Safety
/// A marker only.
pub unsafe trait Pod {}
pub trait Zeroable {}

pub fn zeroed_vec<T: Default + Clone>(n: usize) -> Vec<T> {
    vec![T::default(); n]
}
