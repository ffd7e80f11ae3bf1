//! A binary node: a leaf has `prim_count` not 0 and `first_index` a position; else `first_index` is the first of two
//! adjacent children.
use crate::aabb::Aabb;

#[derive(Clone, Copy, Debug, Default)]
pub struct Bvh2Node {
    pub aabb: Aabb,
    pub prim_count: u32,
    pub first_index: u32,
}

impl Bvh2Node {
    #[inline(always)]
    pub fn is_leaf(&self) -> bool {
        self.prim_count != 0
    }
    #[inline(always)]
    pub fn aabb(&self) -> &Aabb {
        &self.aabb
    }
    pub fn set_aabb(&mut self, aabb: Aabb) {
        self.aabb = aabb;
    }
}
