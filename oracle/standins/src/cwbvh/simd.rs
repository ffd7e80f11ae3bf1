//! In the place of the SIMD body: the reference box test, `intersect_ray_basic`, with each call counted
//! (`--cfg uncounted`, for measuring, leaves the count out).
use super::node::CwBvhNode;
use crate::ray::Ray;
use std::cell::Cell;

thread_local! {
    /// How many nodes were tested since it was last set.
    pub static NODE_TESTS: Cell<u32> = const { Cell::new(0) };
}

impl CwBvhNode {
    #[inline(always)]
    pub fn intersect_ray_simd(&self, ray: &Ray, oct_inv4: u32) -> u32 {
        #[cfg(not(uncounted))]
        NODE_TESTS.with(|n| n.set(n.get() + 1));
        self.intersect_ray_basic(ray, oct_inv4)
    }
}
