//! Stored queries: records with rays, and for each ray the answers of any-hit, closest and miss.
//! On undamaged records the answers are the published traversals', and must be those of the rules.
use crate::accept::accepted_ray;
use crate::checks::damage;
use crate::conversions::some_tree;
use crate::convert::{Converted, convert, nodes_of};
use crate::generate::{along_axis, any_box, beside, corner, ray};
use crate::record::node;
use crate::rng::Rng;
use crate::scene::{Asked, Scene, endless, through_t};
use crate::store::*;
use crate::tree::{Tree, aabb_words, is_leaf, sample_tree, target};
use crate::walker::slot_span;
use crate::zeros::{Share, entered};
use glam::vec3a;
use obvhs::aabb::Aabb;
use obvhs::cwbvh::node::CwBvhNode;
use obvhs::ray::Ray;

/// The panes of a tree: the box of a leaf for each index below n, or boxes drawn by themselves.
pub fn panes(rng: &mut Rng, t: &Tree) -> Vec<u32> {
    let n = t.indices.len();
    let mut panes: Vec<Aabb> = (0..n).map(|_| any_box(rng)).collect();
    if !rng.once_in(6) {
        for v in (0..t.count()).filter(|&v| is_leaf(t.link(v))) {
            panes[t.indices[target(t.link(v)) as usize] as usize] = t.aabb(v);
        }
    }
    panes.iter().flat_map(aabb_words).collect()
}

/// A box to aim at: mostly a leaf's, else any node's or any box.
pub fn target_box(rng: &mut Rng, t: &Tree) -> Aabb {
    let leaves: Vec<usize> = (0..t.count()).filter(|&v| is_leaf(t.link(v))).collect();
    if leaves.is_empty() || rng.once_in(10) {
        return any_box(rng);
    }
    t.aabb(if rng.once_in(4) { rng.below(t.count()) } else { rng.pick(&leaves) })
}

/// The boxes of a record's slots, but for those that hold nothing.
pub fn slot_boxes(record: &[u8]) -> Vec<Aabb> {
    let used = |d: &CwBvhNode| (0..8).filter(|&slot| !d.is_child_empty(slot)).map(|slot| d.child_aabb(slot)).collect::<Vec<_>>();
    nodes_of(record).iter().flat_map(used).collect()
}

/// A ray along an axis through the middle of a slot's box, if the record has one: from there, or from some way back.
fn through_slot(rng: &mut Rng, record: &[u8]) -> Option<Ray> {
    let boxes = slot_boxes(record);
    let b = if boxes.is_empty() { return None } else { rng.pick(&boxes) };
    let d = along_axis(rng);
    let back = (b.max - b.min).max_element() * rng.between(0.0, 2.0);
    let r = Ray::new(b.center() - d * back, d, 0.0, f32::INFINITY);
    accepted_ray(&r).then_some(r)
}

/// An accepted ray that mostly has to do with a tree, at times with tmin where it comes to a slot's box of the record or leaves it.
pub fn aimed(rng: &mut Rng, t: &Tree, record: &[u8]) -> Ray {
    let about = target_box(rng, t);
    let through = if rng.once_in(4) { through_slot(rng, record) } else { None };
    let r = through.unwrap_or_else(|| ray(rng, &about));
    if !rng.once_in(4) {
        return r;
    }
    let slots = (0..8 * (record.len() / 80)).map(|k| (node(record, k / 8), k % 8)).filter(|(d, slot)| d.meta(*slot) != 0);
    let read = entered(&r);
    let spans = slots.map(|(d, slot)| slot_span(&read, &d, slot));
    let met: Vec<(f32, f32)> = spans.filter(|(near, far)| near <= far && *far > 0.0).collect();
    if met.is_empty() {
        return r;
    }
    let (near, far) = rng.pick(&met);
    let at = rng.pick(&[near, far, far]);
    Ray { tmin: beside(rng, at), ..r }
}

/// The converted record of a tree with panes.
pub fn scene(rng: &mut Rng, t: &Tree, c: &Converted) -> Scene {
    Scene { record: c.record.clone(), list: c.list.clone(), panes: panes(rng, t) }
}

/// A tree that converts to a record for queries: its indices name panes, and no level is over 31.
pub fn queried_tree(rng: &mut Rng, k: usize) -> Option<(Tree, Converted)> {
    let t = some_tree(rng, k);
    if t.indices.iter().any(|&x| x as usize >= t.indices.len()) {
        return None;
    }
    let c = convert(&t, rng.below(4) as u32, rng.once_in(2));
    if c.deepest > 31 { None } else { Some((t, c)) }
}

/// A ray that is refused 9, or one that only looks like it.
pub fn odd_ray(rng: &mut Rng, r: &Ray) -> Ray {
    match rng.below(4) {
        0 => Ray::new(vec3a(corner(rng), corner(rng), corner(rng)), r.direction, r.tmin, r.tmax),
        1 => Ray::new(r.origin, vec3a(corner(rng), corner(rng), corner(rng)), r.tmin, r.tmax),
        2 => Ray { tmin: f32::NAN, ..*r },
        _ => Ray { tmax: f32::NAN, ..*r },
    }
}

/// A ray that is refused 9.
pub fn refused_ray(rng: &mut Rng, r: &Ray) -> Ray {
    loop {
        let odd = odd_ray(rng, r);
        if !accepted_ray(&odd) {
            return odd;
        }
    }
}

/// Words to lend for so many positions: a word for each that there is, or just enough, or some more, or too few.
pub fn room(rng: &mut Rng, n: usize, needed: usize) -> usize {
    match rng.below(8) {
        0 => needed,
        1 => needed + 1 + rng.below(3),
        2 => needed.saturating_sub(1),
        3 => rng.below(needed + 1),
        4 => 0,
        _ => n,
    }
}

fn accepted(rng: &mut Rng, t: &Tree, c: &Converted, rays: usize, share: &mut Share) -> Vec<u32> {
    let s = scene(rng, t, c);
    let n = s.list.len();
    let mut all = vec![];
    for _ in 0..rays {
        let ray = aimed(rng, t, &s.record);
        let needed = s.agreed(&ray).any.found.len();
        share.note(&ray, needed > 0);
        all.push(Asked { ray, n, room: room(rng, n, needed) });
    }
    s.case(&all)
}

/// Damaged records, panes, indices or rays: the answers are the rules'.
fn refused(rng: &mut Rng, t: &Tree, c: &Converted, rays: usize, share: &mut Share) -> Vec<u32> {
    let mut s = scene(rng, t, c);
    let kind = rng.below(6);
    match kind {
        0 => s.record.truncate(s.record.len().saturating_sub(1 + rng.below(79))),
        1 => s.panes.push(0),
        2 if !s.list.is_empty() => {
            let k = rng.below(s.list.len());
            s.list[k] = rng.pick(&[t.indices.len() as u32, u32::MAX]);
        }
        3 if !s.panes.is_empty() => {
            let k = rng.below(s.panes.len());
            s.panes[k] = rng.pick(&[0x7fc0_0000, 0x7f80_0000, 0xff80_0000, 0x5380_0001]);
        }
        4 => {
            let mut n = s.list.len();
            (0..1 + rng.below(3)).for_each(|_| damage(rng, &mut s.record, &mut n));
            s.list.resize(n, 0);
        }
        _ => {}
    }
    let mut all = vec![];
    for _ in 0..rays {
        let mut r = aimed(rng, t, &c.record);
        if kind == 5 || rng.once_in(6) {
            r = odd_ray(rng, &r);
        }
        let n = s.list.len();
        let n = if rng.once_in(8) { rng.pick(&[0, n.saturating_sub(1), n + 1, 65536, 65537, u32::MAX as usize]) } else { n };
        let needed = s.by_rules(&Asked { ray: r, n, room: n }).any.found.len();
        share.note(&r, needed > 0);
        all.push(Asked { ray: r, n, room: room(rng, s.list.len(), needed) });
    }
    s.case(&all)
}

/// T's rays with tmin at, and beside, each distance at which they come to a box or leave it, and 0.0001.
fn near_limits(share: &mut Share) -> Vec<u32> {
    let s = Scene::sample();
    let mut all = vec![];
    for (x, places) in [(-1.0, [1.0, 2.0, 3.0, 4.0]), (0.5, [-0.5, 0.5, 1.5, 2.5]), (-0.00005, [0.00005, 0.0001, 2.00005, 0.0])] {
        let beside = places.iter().flat_map(|t: &f32| [t.next_down(), *t, t.next_up()]);
        for tmin in beside.chain([1.5, 3.5, 4.5, -1.0, -0.0, f32::INFINITY, f32::NEG_INFINITY]) {
            let ray = through_t(x, tmin);
            let needed = s.agreed(&ray).any.found.len();
            share.note(&ray, needed > 0);
            all.push(Asked { ray, n: 2, room: needed });
        }
    }
    s.case(&all)
}

/// T's rays with -0.0, each beside the one with +0.0 in its place, which is answered the same.
fn negative_zeros(share: &mut Share) -> Vec<u32> {
    let s = Scene::sample();
    let mut all = vec![];
    for (origin, direction) in [
        ([-1.0, 0.5, 0.5], [1.0, -0.0, 0.0]),
        ([-1.0, 0.5, 0.5], [1.0, 0.0, -0.0]),
        ([-1.0, 0.5, 0.5], [1.0, -0.0, -0.0]),
        ([4.0, 0.5, 0.5], [-1.0, -0.0, -0.0]),
        ([2.5, -1.0, 0.5], [-0.0, 1.0, -0.0]),
        ([-1.0, -0.0, 0.5], [1.0, 0.0, 0.0]),
        ([-1.0, -0.0, -0.0], [1.0, -0.0, -0.0]),
        ([-0.0, -0.0, -0.0], [1.0, 0.25, 0.25]),
        ([0.5, 0.5, 0.5], [-0.0, -0.0, -0.0]),
        ([-0.0, -0.0, -0.0], [-0.0, -0.0, -0.0]),
    ] {
        let ray = endless(origin, direction);
        let a = s.agreed(&ray);
        assert!(a == s.agreed(&entered(&ray)) && a.any.refusal == 0);
        for ray in [ray, entered(&ray)] {
            share.note(&ray, !a.any.found.is_empty());
            all.push(Asked { ray, n: 2, room: a.any.found.len() });
        }
    }
    s.case(&all)
}

/// T with a pane that is met and refused, by its index word or its box; its distance is at tmin, beside it, or further below.
fn hidden_and_refused(share: &mut Share) -> Vec<Vec<u32>> {
    let mut cases = vec![];
    for (pane, at, leaves) in [(0, 1.0f32, 2.0f32), (1, 3.0, 4.0)] {
        let (mut past, mut flawed) = (Scene::sample(), Scene::sample());
        past.list[pane] = 2;
        flawed.panes[6 * pane + 4] = 0x7fc0_0000;
        for (s, number) in [(past, 10), (flawed, 6)] {
            let tmins = [at.next_down(), at, at.next_up(), at + 0.5, leaves];
            let asked = tmins.map(|tmin| Asked { ray: through_t(-1.0, tmin), n: 2, room: 2 });
            // position 1 comes first, and where it blocks the ray miss looks no further
            let miss = |q: &Asked| pane == 0 || s.by_rules(q).miss.refusal == number;
            asked.iter().for_each(|q| assert!(s.by_rules(q).closest.refusal == number && miss(q)));
            asked.iter().for_each(|q| share.note(&q.ray, true));
            cases.push(s.case(&asked));
        }
    }
    cases
}

pub fn groups(seed: u64) -> Vec<Group> {
    let mut rng = Rng::new(seed);
    let rng = &mut rng;
    let (mut good, mut bad) = (Group::new(QUERIES, 0), Group::new(QUERIES, 0));
    let share = &mut Share::default();
    for t in [Tree::default(), sample_tree()] {
        let c = convert(&t, 3, false);
        good.add(accepted(rng, &t, &c, 20, share));
        bad.add(refused(rng, &t, &c, 20, share));
    }
    good.add(near_limits(share));
    good.add(negative_zeros(share));
    hidden_and_refused(share).into_iter().for_each(|case| bad.add(case));
    for k in 0..200 {
        let Some((t, c)) = queried_tree(rng, k) else { continue };
        if k % 2 == 0 {
            good.add(accepted(rng, &t, &c, 24, share));
        } else {
            bad.add(refused(rng, &t, &c, 8, share));
        }
    }
    println!("queries: kind {QUERIES}, {share} pass something");
    assert!(share.one_in(10));
    vec![good, bad]
}
