//! Named by bvh2/mod.rs and never called by the oracle.
use super::Bvh2;

pub struct Reinsertion {
    pub from: u32,
    pub to: u32,
    pub area_diff: f32,
}

pub fn find_reinsertion(_: &Bvh2, _: usize) -> Reinsertion {
    unreachable!()
}

pub fn reinsert_node(_: &mut Bvh2, _: usize, _: usize) {
    unreachable!()
}
