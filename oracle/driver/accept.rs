//! Which boxes, rays and trees the rules refuse. The Rust has no such tests.
use crate::tree::{BOUND, Tree, target};
use obvhs::aabb::Aabb;
use obvhs::ray::Ray;

pub const MOST_LEAVES: usize = 65536;
pub const MOST_NODES: usize = 65535;
pub const MOST_EDGES: u32 = 127;

pub fn in_bounds(x: f32) -> bool {
    (-BOUND..=BOUND).contains(&x)
}

/// No cause 6 holds of the box.
pub fn accepted_box(b: &Aabb) -> bool {
    let ends = [(b.min.x, b.max.x), (b.min.y, b.max.y), (b.min.z, b.max.z)];
    ends.iter().all(|&(lo, hi)| in_bounds(lo) && in_bounds(hi) && lo <= hi)
}

/// No cause 9 holds of the ray.
pub fn accepted_ray(r: &Ray) -> bool {
    let f = [r.origin.x, r.origin.y, r.origin.z, r.direction.x, r.direction.y, r.direction.z];
    f.iter().all(|&x| in_bounds(x)) && !r.tmin.is_nan() && !r.tmax.is_nan()
}

/// The lengths of the slices that a conversion is given, beside the tree's own.
#[derive(Clone, Copy)]
pub struct Room {
    pub decisions: usize,
    pub costs: usize,
    pub record: usize,
    pub list: usize,
}

impl Room {
    /// The least that a tree of n leaves needs.
    pub fn needed(n: usize) -> Room {
        let nodes = if n == 0 { 0 } else { 2 * n - 1 };
        let record = if n == 0 { 0 } else { 80 * 1.max(n - 1) };
        Room { decisions: 7 * nodes, costs: 7 * nodes, record, list: n }
    }

    fn short_of(&self, need: Room) -> bool {
        self.decisions < need.decisions || self.costs < need.costs || self.record < need.record || self.list < need.list
    }
}

/// No cause 1 holds: seven words for each of 2n - 1 nodes, or none without leaves.
pub fn sized(t: &Tree) -> bool {
    let n = t.indices.len();
    t.nodes.len() == if n == 0 { 0 } else { 7 * (2 * n - 1) }
}

/// No cause 5 holds: each link leads to two nodes of the tree, or to one of its positions.
pub fn linked(t: &Tree) -> bool {
    (0..t.count()).all(|v| match t.link(v) >> 30 {
        0 => target(t.link(v)) as usize + 1 < t.count(),
        1 => (target(t.link(v)) as usize) < t.indices.len(),
        _ => false,
    })
}

/// No cause 6 holds of any node.
pub fn boxed(t: &Tree) -> bool {
    (0..t.count()).all(|v| accepted_box(&t.aabb(v)))
}

/// The first of causes 1 to 7 that holds, or 0.
pub fn conversion_refusal(t: &Tree, limit: u32, room: Room) -> u32 {
    let n = t.indices.len();
    if !sized(t) {
        return 1;
    }
    if n > MOST_LEAVES {
        return 2;
    }
    if limit > 3 {
        return 3;
    }
    if room.short_of(Room::needed(n)) {
        return 4;
    }
    if !linked(t) {
        return 5;
    }
    if !boxed(t) {
        return 6;
    }
    if reached_once(t, MOST_EDGES) { 0 } else { 7 }
}

/// Going down from the root meets every node and every position, none a second time, and no way down has over so many edges.
pub fn reached_once(t: &Tree, most: u32) -> bool {
    let mut nodes = vec![false; t.count()];
    let mut positions = vec![false; t.indices.len()];
    let mut due = if nodes.is_empty() { vec![] } else { vec![(0usize, 0u32)] };
    while let Some((v, edges)) = due.pop() {
        if std::mem::replace(&mut nodes[v], true) || edges > most {
            return false;
        }
        let to = target(t.link(v)) as usize;
        if t.link(v) >> 30 == 0 {
            due.push((to, edges + 1));
            due.push((to + 1, edges + 1));
        } else if std::mem::replace(&mut positions[to], true) {
            return false;
        }
    }
    nodes.iter().all(|&m| m) && positions.iter().all(|&m| m)
}
