//! Trees in words: seven for a node (six bounds as f32 bits, a link), and one for each index.
use glam::{Vec3A, vec3a};
use obvhs::aabb::Aabb;
use obvhs::bvh2::{Bvh2, node::Bvh2Node};

pub const BOUND: f32 = 1099511627776.0; // 2^40

#[derive(Clone, Default, PartialEq, Debug)]
pub struct Tree {
    pub nodes: Vec<u32>,
    pub indices: Vec<u32>,
}

pub fn inner(first: u32) -> u32 {
    first
}

pub fn leaf(position: u32) -> u32 {
    1 << 30 | position
}

pub fn is_leaf(link: u32) -> bool {
    link >> 30 == 1
}

pub fn target(link: u32) -> u32 {
    link & 0x3fff_ffff
}

pub fn aabb(w: &[u32]) -> Aabb {
    let f = |i: usize| f32::from_bits(w[i]);
    Aabb::new(vec3a(f(0), f(1), f(2)), vec3a(f(3), f(4), f(5)))
}

pub fn bits(v: Vec3A) -> [u32; 3] {
    [v.x.to_bits(), v.y.to_bits(), v.z.to_bits()]
}

pub fn aabb_words(b: &Aabb) -> [u32; 6] {
    let (p, q) = (bits(b.min), bits(b.max));
    [p[0], p[1], p[2], q[0], q[1], q[2]]
}

/// A zero of either sign as +0, any other value as it is.
pub fn unsigned_zero(x: f32) -> f32 {
    if x == 0.0 { 0.0 } else { x }
}

impl Tree {
    pub fn count(&self) -> usize {
        self.nodes.len() / 7
    }

    pub fn link(&self, v: usize) -> u32 {
        self.nodes[7 * v + 6]
    }

    pub fn aabb(&self, v: usize) -> Aabb {
        aabb(&self.nodes[7 * v..])
    }

    pub fn push(&mut self, b: &Aabb, link: u32) {
        self.nodes.extend(aabb_words(b));
        self.nodes.push(link);
    }

    /// The published tree of the same nodes and indices.
    pub fn bvh2(&self) -> Bvh2 {
        let node = |v| Bvh2Node {
            aabb: self.aabb(v),
            prim_count: is_leaf(self.link(v)) as u32,
            first_index: target(self.link(v)),
        };
        Bvh2 {
            nodes: (0..self.count()).map(node).collect(),
            primitive_indices: self.indices.clone(),
            ..Default::default()
        }
    }
}

/// The tree T of the samples.
pub fn sample_tree() -> Tree {
    let mut t = Tree::default();
    let b = |x0: f32, x1: f32| Aabb::new(vec3a(x0, 0.0, 0.0), vec3a(x1, 1.0, 1.0));
    t.push(&b(0.0, 3.0), inner(1));
    t.push(&b(0.0, 1.0), leaf(0));
    t.push(&b(2.0, 3.0), leaf(1));
    t.indices = vec![0, 1];
    t
}
