//! The published traversals, handed rays without -0.0, with node tests counted, zero distances given as +0, and distances below
//! tmin hidden.
use crate::tree::{aabb, unsigned_zero};
use crate::walk::Answer;
use crate::walker::{Group, Held, Step};
use crate::zeros::entered;
use glam::uvec2;
use obvhs::aabb::Aabb;
use obvhs::cwbvh::{CwBvh, RayTraversal, simd::NODE_TESTS};
use obvhs::faststack::FastStack;
use obvhs::ray::{Ray, RayHit};

fn tests() -> u32 {
    NODE_TESTS.with(|n| n.get())
}

fn counted<T>(run: impl FnOnce() -> T) -> (T, u32) {
    NODE_TESTS.with(|n| n.set(0));
    let r = run();
    (r, tests())
}

pub fn any_hit(bvh: &CwBvh, ray: Ray) -> Answer {
    let (found, tests) = counted(|| {
        let mut found = vec![];
        bvh.ray_traverse_anyhit(entered(&ray), |_, id| found.push(id as u32));
        found
    });
    Answer { refusal: 0, tests, found }
}

/// Panes of six floats. One that is none is hidden.
pub fn panes_of(words: &[u32]) -> Vec<Option<Aabb>> {
    words.chunks(6).map(|w| Some(aabb(w))).collect()
}

/// A distance as it is, or +infinity where it is below tmin.
fn hidden(ray: &Ray, distance: f32) -> f32 {
    if distance < ray.tmin { f32::INFINITY } else { distance }
}

/// A pane's distance, or +infinity where it is hidden.
fn distance(bvh: &CwBvh, panes: &[Option<Aabb>], ray: &Ray, id: usize) -> f32 {
    let pane = panes[bvh.primitive_indices[id] as usize];
    pane.map_or(f32::INFINITY, |b| hidden(ray, unsigned_zero(b.intersect_ray(ray))))
}

pub fn closest(bvh: &CwBvh, panes: &[Option<Aabb>], ray: Ray) -> Answer {
    let (found, tests) = counted(|| {
        let mut hit = RayHit::none();
        if bvh.ray_traverse(entered(&ray), &mut hit, |r, id| distance(bvh, panes, r, id)) {
            vec![hit.primitive_id, hit.t.to_bits()]
        } else {
            vec![]
        }
    });
    Answer { refusal: 0, tests, found }
}

pub fn miss(bvh: &CwBvh, panes: &[Option<Aabb>], ray: Ray) -> Answer {
    let (missed, tests) = counted(|| bvh.ray_traverse_miss(entered(&ray), |r, id| distance(bvh, panes, r, id)));
    Answer { refusal: 0, tests, found: vec![missed as u32] }
}

/// Closest by the dynamic traversal, run until it yields nothing.
pub fn closest_dynamic(bvh: &CwBvh, panes: &[Option<Aabb>], ray: Ray) -> Answer {
    let (found, tests) = counted(|| {
        let mut hit = RayHit::none();
        let mut state = bvh.new_ray_traversal(entered(&ray));
        let mut found = vec![];
        while bvh.ray_traverse_dynamic(&mut state, &mut hit, |r, id| distance(bvh, panes, r, id)) {
            found = vec![hit.primitive_id, hit.t.to_bits()];
        }
        found
    });
    Answer { refusal: 0, tests, found }
}

/// The published traversal in the state that a walker's words say.
fn traversal(bvh: &CwBvh, from: &Held) -> RayTraversal {
    let mut state = bvh.new_ray_traversal(entered(&from.ray));
    let group = |g: &Group| uvec2(g.base, g.bits);
    state.primitive_group = group(&from.positions);
    if !bvh.nodes.is_empty() {
        state.current_group = group(&from.current);
    }
    let waiting = (0..from.depth as usize).map(|i| from.stack.get(i).copied().unwrap_or_default());
    waiting.for_each(|g| state.stack.push(group(&g)));
    state
}

/// The tests and reports of the dynamic traversal in their order, the k-th report answered with the k-th told distance; and the
/// bits of tmax at its end.
pub fn steps(bvh: &CwBvh, from: &Held, told: &[f32]) -> (Vec<Step>, u32) {
    steps_shown(bvh, from, told, |_| true)
}

/// The same where only some positions are shown: of the others no report is counted, and the answer is +infinity.
pub fn steps_shown(bvh: &CwBvh, from: &Held, told: &[f32], shown: impl Fn(usize) -> bool) -> (Vec<Step>, u32) {
    let mut out: Vec<Step> = vec![];
    let (reach, all) = counted(|| {
        let mut hit = RayHit::none();
        let mut state = traversal(bvh, from);
        let (mut seen, mut reports) = (0, 0);
        let mut report = |r: &Ray, id: usize| {
            out.extend((seen..tests()).map(|_| Step::Tested));
            seen = tests();
            if !shown(id) {
                return f32::INFINITY;
            }
            out.push(Step::Reported(id as u32));
            reports += 1;
            hidden(r, told[(reports - 1) % told.len()])
        };
        while bvh.ray_traverse_dynamic(&mut state, &mut hit, &mut report) {}
        state.ray.tmax.to_bits()
    });
    let seen = out.iter().filter(|s| **s == Step::Tested).count() as u32;
    out.extend((seen..all).map(|_| Step::Tested));
    out.push(Step::Done);
    (out, reach)
}
