//! Stored answers about one node: its metas decoded, the node rule, hit masks, and what its slots hold.
use crate::accept::{accepted_ray, in_bounds};
use crate::conversions::some_tree;
use crate::convert::{bvh_of, convert, nodes_of};
use crate::generate::{beside, bounded_bits, corner, ray};
use crate::leaves::word;
use crate::record::{Node, rule_of};
use crate::rng::Rng;
use crate::store::*;
use crate::tree::BOUND;
use crate::walker::slot_span;
use crate::zeros::{Share, entered};
use glam::Vec3A;
use obvhs::ray::Ray;

/// The most nodes of the record that `replay_nodes` has room for.
const ROOM: usize = 819;

/// Metas on either side of what a leaf may have.
const EDGES: [u8; 13] = [0x38, 0x37, 0x77, 0x76, 0xf6, 0xf5, 0x20, 0x01, 0x1f, 0x40, 0x80, 0xa0, 0xc0];

type Bytes = [u8; 80];

fn low_high(x: u64) -> [u32; 2] {
    [x as u32, (x >> 32) as u32]
}

/// An octant as the published code takes it, in each of four bytes.
fn four(octant: u32) -> u32 {
    octant * 0x0101_0101
}

/// A leaf's meta: one to three positions that end at most at 24.
fn leaf_code(rng: &mut Rng) -> u8 {
    let count = 1 + rng.below(3);
    let start = if rng.once_in(4) { 24 - count } else { rng.below(25 - count) };
    [0x20, 0x60, 0xe0][count - 1] | start as u8
}

/// The meta of a slot that holds a node, a leaf or nothing.
fn meta(rng: &mut Rng, imask: u8, slot: usize) -> u8 {
    match imask >> slot & 1 {
        1 => 56 + slot as u8,
        _ if rng.once_in(3) => 0,
        _ => leaf_code(rng),
    }
}

fn any_bytes<const N: usize>(rng: &mut Rng) -> [u8; N] {
    std::array::from_fn(|_| rng.bits() as u8)
}

/// Every byte in every place for every octant, then so many more.
fn decoded(rng: &mut Rng, more: usize) -> Group {
    let mut g = Group::new(DECODED, 7);
    let mut add = |metas: [u8; 8], octant: u32| {
        let mut record = [0u8; 80];
        record[24..32].copy_from_slice(&metas);
        let (child, index) = nodes_of(&record)[0].get_child_and_index_bits(four(octant));
        let mut case = low_high(u64::from_le_bytes(metas)).to_vec();
        case.push(octant);
        case.extend(low_high(child));
        case.extend(low_high(index));
        g.add(case);
    };
    for octant in 0..8 {
        for byte in 0..256 {
            add(std::array::from_fn(|k| (byte + 37 * k) as u8), octant);
        }
    }
    for _ in 0..more {
        let imask = rng.bits() as u8;
        let right = std::array::from_fn(|slot| meta(rng, imask, slot));
        add(if rng.once_in(2) { right } else { any_bytes(rng) }, rng.below(8) as u32);
    }
    g
}

/// A node with its number, and how many nodes and positions its record has.
struct Numbered {
    bytes: Bytes,
    i: u32,
    m: u32,
    n: u32,
}

impl Numbered {
    fn set(&mut self, at: usize, word: u32) {
        self.bytes[at..at + 4].copy_from_slice(&word.to_le_bytes());
    }
    fn word(&self, at: usize) -> u32 {
        Node(&self.bytes).word(at)
    }
}

/// One of a few numbers just past `least`, mostly itself.
fn near(rng: &mut Rng, least: u32) -> u32 {
    least + rng.pick(&[0, 0, 0, 1, 2, 7])
}

fn coordinate(rng: &mut Rng) -> f32 {
    match rng.below(4) {
        0 => rng.pick(&[0.0, -0.0, BOUND, -BOUND, 1e-40]),
        1 => bounded_bits(rng),
        _ => rng.between(-100.0, 100.0),
    }
}

fn exponent(rng: &mut Rng) -> u8 {
    if rng.once_in(4) { rng.pick(&[53, 54, 160, 161]) } else { 53 + rng.below(109) as u8 }
}

/// A node that meets the rule, mostly with no node and no position to spare.
fn right_node(rng: &mut Rng) -> Numbered {
    let i = if rng.once_in(4) { rng.below(ROOM) } else { rng.below(4) } as u32;
    let mut d = Numbered { bytes: any_bytes(rng), i, m: 0, n: 0 };
    let imask = if rng.once_in(4) { 0 } else { rng.bits() as u8 };
    for a in 0..3 {
        d.set(4 * a, coordinate(rng).to_bits());
        d.bytes[12 + a] = exponent(rng);
    }
    d.bytes[15] = imask;
    for slot in 0..8 {
        d.bytes[24 + slot] = meta(rng, imask, slot);
    }
    let first = near(rng, i + 1);
    if imask != 0 {
        d.set(16, first);
        d.m = near(rng, first + imask.count_ones());
    } else {
        d.m = rng.pick(&[0, i, i + 1, 65535]);
    }
    let base = rng.pick(&[0, 1, 100, 65512, 0xffff_0000]) + rng.below(20) as u32;
    d.set(20, base);
    let leaves = (0..8).filter(|&s| Node(&d.bytes).is_leaf_slot(s));
    let end = leaves.map(|s| Node(&d.bytes).leaf_range(s)).map(|(first, count)| first + count).max();
    d.n = near(rng, end.unwrap_or(0) as u32);
    d
}

/// One thing changed: a bound passed, a bit, a number by one, or any value.
fn damage_node(rng: &mut Rng, d: &mut Numbered) {
    let past = BOUND.to_bits() + 1;
    let sign = rng.bits() & 0x8000_0000;
    let (axis, slot) = (rng.below(3), rng.below(8));
    match rng.below(11) {
        0 => d.set(4 * axis, sign | rng.pick(&[past, past, 0x7f80_0000, 0x7fc0_0000, 0x7f7f_ffff])),
        1 => d.bytes[12 + axis] = rng.pick(&[52, 162, 0, 255]),
        2 => d.bytes[15] ^= 1 << slot,
        3 => d.set(16, rng.pick(&[d.i, d.i.wrapping_sub(1), d.word(16).wrapping_add(1), 0, u32::MAX])),
        4 => d.m = rng.pick(&[d.m.wrapping_sub(1), d.i, d.i + 1, 0, u32::MAX]),
        5 => d.n = rng.pick(&[d.n.wrapping_sub(1), d.n / 2, 0, u32::MAX]),
        6 => d.set(20, rng.pick(&[d.word(20).wrapping_add(1), d.word(20).wrapping_add(24), d.n, u32::MAX])),
        7 => d.bytes[24 + slot] = rng.bits() as u8,
        8 => d.bytes[24 + slot] = 56 + rng.below(8) as u8,
        9 => d.bytes[24 + slot] = rng.pick(&EDGES),
        _ => d.bytes[24 + slot] = d.bytes[24 + slot].wrapping_add(rng.pick(&[1, 255, 32, 224])),
    }
}

/// The node, its number, nodes, positions; whether it meets the rule.
fn rules(rng: &mut Rng, count: usize) -> Group {
    let mut g = Group::new(NODE_RULE, 24);
    for k in 0..count {
        let mut d = right_node(rng);
        match k % 8 {
            0..3 => {}
            3..7 => damage_node(rng, &mut d),
            _ => {
                // any bytes, in most of them with p and e in their ranges
                let from = if rng.once_in(4) { 0 } else { 15 };
                let any: Bytes = any_bytes(rng);
                d.bytes[from..].copy_from_slice(&any[from..]);
            }
        }
        let meets = rule_of(&Node(&d.bytes), d.i as usize, d.m as usize, d.n as usize);
        let mut case = words_of(&d.bytes);
        case.extend([d.i, d.m, d.n, meets as u32]);
        g.add(case);
    }
    g
}

/// Any bytes but p, finite, and e, 53 to 161; in most nodes each box has its ends in order, and the metas are right.
fn random_node(rng: &mut Rng) -> Bytes {
    let mut d: Bytes = any_bytes(rng);
    let scale = rng.below(109) as u8;
    for a in 0..3 {
        let p = match rng.below(8) {
            0 => corner(rng),
            1 => bounded_bits(rng),
            2 => rng.pick(&[0.0, -0.0]),
            _ => rng.between(-200.0, 200.0) * f32::from_bits((53 + scale as u32) << 23),
        };
        let p = if p.is_finite() { p } else { f32::MAX };
        d[4 * a..4 * a + 4].copy_from_slice(&p.to_bits().to_le_bytes());
        d[12 + a] = if rng.once_in(8) { exponent(rng) } else { 53 + scale };
        for slot in 0..8 {
            let (lo, hi) = (32 + 16 * a + slot, 40 + 16 * a + slot);
            match rng.below(16) {
                0 => {}
                1..4 => (d[lo], d[hi]) = (0, 255),
                4 => d[hi] = d[lo],
                _ => (d[lo], d[hi]) = (d[lo].min(d[hi]), d[lo].max(d[hi])),
            }
        }
    }
    if !rng.once_in(4) {
        for slot in 0..8 {
            d[24 + slot] = meta(rng, d[15], slot);
        }
    }
    d
}

/// A node of a converted record.
fn converted_node(rng: &mut Rng, k: usize) -> Bytes {
    let t = some_tree(rng, k);
    let record = convert(&t, rng.below(4) as u32, rng.once_in(2)).record;
    let i = rng.below(record.len() / 80);
    record[80 * i..80 * i + 80].try_into().unwrap()
}

/// A tmin about where the ray comes to a slot's box or leaves it, about 0.0001, infinite or a NaN.
fn near_end(rng: &mut Rng, d: &Bytes, slot: usize, r: &Ray) -> f32 {
    let (near, far) = slot_span(&entered(r), &Node(d), slot);
    match rng.below(8) {
        0 => beside(rng, near),
        1..4 => beside(rng, far),
        4 | 5 => beside(rng, 0.0001),
        _ => rng.pick(&[f32::NAN, f32::NAN, f32::INFINITY, f32::NEG_INFINITY]),
    }
}

/// A ray from the node's corner that leaves the box of a slot at about 0.0001, if one is accepted.
fn short_ray(rng: &mut Rng, d: &Bytes, slot: usize) -> Option<Ray> {
    let node = Node(d);
    let f = |a: usize| node.end(slot, a, true) as f32 * f32::from_bits((node.e(a) as u32) << 23) / 0.0001;
    let origin = [node.p(0), node.p(1), node.p(2)];
    let direction = [f(0), f(1), f(2)];
    let tmax = if rng.once_in(2) { f32::INFINITY } else { beside(rng, 0.0001) };
    let within = origin.iter().chain(&direction).all(|&x| in_bounds(x));
    within.then(|| Ray::new(Vec3A::from(origin), Vec3A::from(direction), beside(rng, 0.0001), tmax))
}

/// A ray about the box of a slot in use, at times with its reach just where it meets a plane of the box. But for tmin it is
/// accepted.
fn ray_about(rng: &mut Rng, d: &Bytes) -> Ray {
    let node = nodes_of(d)[0];
    let used: Vec<usize> = (0..8).filter(|&slot| !node.is_child_empty(slot)).collect();
    let slot = if used.is_empty() { 0 } else { rng.pick(&used) };
    if rng.once_in(6) && let Some(r) = short_ray(rng, d, slot) {
        return r;
    }
    loop {
        let b = node.child_aabb(slot);
        let mut r = ray(rng, &b);
        let planes = (rng.pick(&[b.min, b.max]) - r.origin) * entered(&r).inv_direction;
        let at = rng.pick(&[planes.x, planes.y, planes.z]);
        if at > 0.0 && rng.once_in(4) {
            r.tmax = f32::from_bits(at.to_bits() + rng.below(3) as u32 - 1);
        }
        if !accepted_ray(&r) {
            continue;
        }
        let tmin = if rng.once_in(3) { near_end(rng, d, slot, &r) } else { r.tmin };
        return Ray { tmin, ..r };
    }
}

/// The node, a ray's eight floats, an octant; the hit mask.
fn masks(rng: &mut Rng, count: usize) -> Group {
    let mut g = Group::new(HIT_MASK, 30);
    let mut share = Share::default();
    for k in 0..count {
        let d = if k % 3 == 0 { converted_node(rng, k / 3) } else { random_node(rng) };
        let r = ray_about(rng, &d);
        let read = entered(&r);
        let own = bvh_of(&[], &[]).new_traversal(read.direction).oct_inv4;
        let octant = if rng.once_in(4) { rng.below(8) as u32 } else { own & 7 };
        let mut case = words_of(&d);
        for v in [r.origin, r.direction] {
            case.extend([word(v.x), word(v.y), word(v.z)]);
        }
        let mask = nodes_of(&d)[0].intersect_ray_basic(&read, four(octant));
        case.extend([word(r.tmin), word(r.tmax), octant, mask]);
        share.note(&r, mask != 0);
        g.add(case);
    }
    println!("nodes: kind {HIT_MASK}, {share} pass a slot");
    g
}

/// The node, its extent; for each slot whether it is a leaf's or nobody's and whether it is empty (1 and 2), its first
/// position, how many, and the number of its child (all ones where the low five bits of its meta are below 24).
fn slots(rng: &mut Rng, count: usize) -> Group {
    let mut g = Group::new(SLOTS, 55);
    for k in 0..count {
        let mut bytes = if k % 2 == 0 { random_node(rng) } else { any_bytes(rng) };
        // every e byte on every axis, and no base so high that a sum wraps
        (0..3).for_each(|a| bytes[12 + a] = (k + 85 * a) as u8);
        (bytes[19], bytes[23]) = (bytes[19] % 128, bytes[23] % 128);
        let d = nodes_of(&bytes)[0];
        let e = d.compute_extent();
        let mut case = words_of(&bytes);
        case.extend([word(e.x), word(e.y), word(e.z)]);
        for slot in 0..8 {
            let (first, positions) = d.child_primitives(slot);
            let child = if d.child_meta[slot] % 32 < 24 { u32::MAX } else { d.child_node_index(slot) };
            case.extend([d.is_leaf(slot) as u32 + 2 * d.is_child_empty(slot) as u32, first, positions, child]);
        }
        g.add(case);
    }
    g
}

pub fn groups(seed: u64) -> Vec<Group> {
    let mut rng = Rng::new(seed);
    let rng = &mut rng;
    vec![decoded(rng, 952), rules(rng, 2000), masks(rng, 4000), slots(rng, 512)]
}
