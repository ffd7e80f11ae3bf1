//! Walkers that their caller has made up: with odd bits, forged, on records without nodes, near the largest numbers; and
//! records that let many groups wait.
use crate::accept::{MOST_LEAVES, MOST_NODES, accepted_ray};
use crate::convert::convert;
use crate::generate::ray;
use crate::queries::{odd_ray, target_box};
use crate::rng::Rng;
use crate::run::{Calls, Ground};
use crate::tree::sample_tree;
use crate::walker::{Group, Held, Step};
use crate::zeros::entered;
use glam::{Vec3A, vec3a};
use obvhs::ray::Ray;

/// Along the diagonal through the origin.
pub fn diagonal() -> Ray {
    Ray::new(vec3a(-1.0, -1.0, -1.0), vec3a(1.0, 1.0, 1.0), 0.0, f32::INFINITY)
}

/// Nodes of points at the origin, each with the next two as its children, the first with a position too.
pub fn ladder(m: usize) -> Vec<u8> {
    let mut record = vec![0u8; 80 * m];
    for i in 0..m {
        let d = &mut record[80 * i..80 * i + 80];
        let children = (m - 1 - i).min(2);
        d[12..15].fill(127);
        d[15] = [0, 1, 3][children];
        d[16..20].copy_from_slice(&(i as u32 + 1).to_le_bytes());
        (0..children).for_each(|s| d[24 + s] = 56 + s as u8);
    }
    record[26] = 0x20;
    record
}

/// Bits of which a few are set, or many, or all.
fn some_bits(rng: &mut Rng) -> u32 {
    match rng.below(4) {
        0 => 1 << rng.below(32),
        1 => rng.bits() & rng.bits() & rng.bits(),
        2 => rng.bits(),
        _ => rng.pick(&[0, 0, 0, u32::MAX]),
    }
}

/// A group of children: hits, bits that mean nothing, an imask of few or all bits, and mostly a base that leads to nodes.
fn some_group(rng: &mut Rng, m: usize) -> Group {
    let hits = if rng.once_in(4) { 0 } else { some_bits(rng) >> 24 };
    let imask = rng.pick(&[0, 0, 1, 2, 0x80, 0xff]) | if rng.once_in(3) { rng.bits() & 0xff } else { 0 };
    let between = if rng.once_in(3) { rng.bits() & 0xffff } else { 0 };
    let base = match rng.below(8) {
        0 => rng.bits(),
        1 => u32::MAX - rng.below(9) as u32,
        _ => rng.below(m.max(1)) as u32,
    };
    Group { base, bits: hits << 24 | between << 8 | imask }
}

/// A walker with odd bits that is not forged on a record of m nodes.
pub fn odd_walker(rng: &mut Rng, r: &Ray, m: usize, n: usize) -> Held {
    let mut h = Held::fresh(r);
    h.tests = if rng.once_in(3) { rng.below(m + 1) as u32 } else { 0 };
    h.positions.bits = some_bits(rng);
    h.positions.base = match rng.below(8) {
        0 => rng.bits(),
        1 => u32::MAX - rng.below(32) as u32,
        2 => (n as u32).saturating_sub(rng.below(33) as u32),
        _ => rng.below(9) as u32,
    };
    if !rng.once_in(3) {
        h.current = some_group(rng, m);
    }
    h.depth = rng.pick(&[0, 0, 0, 1, 2, 3, 5, 31, 32]);
    h.stack = (0..rng.below(h.depth as usize + 1)).map(|_| some_group(rng, m)).collect();
    h
}

/// Walkers whose ray fails 9, but for which inverse and octant are its direction's.
fn refused_rays(rng: &mut Rng, r: &Ray) -> Vec<Held> {
    let mut all = vec![];
    while all.len() < 8 {
        let bad = odd_ray(rng, r);
        if !accepted_ray(&bad) {
            all.push(Held::fresh(&bad));
        }
    }
    for (tmin, tmax) in [(f32::NAN, r.tmax), (f32::NAN, f32::INFINITY), (r.tmin, f32::NAN), (f32::NAN, f32::NAN)] {
        all.push(Held::fresh(&Ray { tmin, tmax, ..*r }));
    }
    all
}

/// Components of a ray that are zero together, 0 to 2 of its origin and 3 to 5 of its direction: each alone, a vector's, all.
const ZEROS: [&[usize]; 9] = [&[0], &[1], &[2], &[3], &[4], &[5], &[0, 1, 2], &[3, 4, 5], &[0, 1, 2, 3, 4, 5]];

/// The ray with +0.0 for its zeros but -0.0 in these components, and the inverse of the direction with it: once for each of ZEROS.
pub fn negative_zeros(r: &Ray) -> Vec<Ray> {
    let Ray { origin: o, direction: d, tmin, tmax, .. } = entered(r);
    let with = |at: &&[usize]| {
        let mut c = [o.x, o.y, o.z, d.x, d.y, d.z];
        at.iter().for_each(|&k| c[k] = -0.0);
        Ray::new(vec3a(c[0], c[1], c[2]), vec3a(c[3], c[4], c[5]), tmin, tmax)
    };
    ZEROS.iter().map(with).collect()
}

/// Walkers that hold -0.0: with an inverse that is their direction's, and with that of +0.0; at last one all of whose floats are
/// -0.0.
fn unread(r: &Ray) -> Vec<Held> {
    let mut all = vec![];
    for ray in negative_zeros(r) {
        let read = Held::fresh(&ray);
        all.push(Held { ray, ..read.clone() });
        if ray.inv_direction != read.ray.inv_direction {
            all.push(Held { ray: Ray { inv_direction: read.ray.inv_direction, ..ray }, ..read });
        }
    }
    let none = Vec3A::splat(-0.0);
    let ray = Ray { origin: none, direction: none, inv_direction: none, tmin: -0.0, tmax: -0.0 };
    all.push(Held { ray, ..Held::fresh(&ray) });
    all
}

/// Walkers whose inverse is not their direction's on an axis.
fn other_inverses(fresh: &Held) -> Vec<Held> {
    let mut all = vec![];
    for axis in 0..3 {
        let turned = |x: f32, k: usize| match k {
            0 => -x,
            1 => f32::from_bits(x.to_bits() ^ 1),
            2 => 0.0,
            _ => f32::NAN,
        };
        for k in 0..4 {
            let mut h = fresh.clone();
            let i = &mut h.ray.inv_direction;
            match axis {
                0 => i.x = turned(i.x, k),
                1 => i.y = turned(i.y, k),
                _ => i.z = turned(i.z, k),
            }
            all.push(h);
        }
    }
    all
}

/// Walkers that are forged on a record of m nodes, by each thing on the list.
pub fn forged(rng: &mut Rng, r: &Ray, m: usize) -> Vec<Held> {
    let fresh = Held::fresh(r);
    let mut all = [refused_rays(rng, r), unread(r), other_inverses(&fresh)].concat();
    let own = fresh.octant;
    for octant in (0..10).chain([own | 8, own | 0x0101_0100, own * 0x0101_0101, u32::MAX]).filter(|&x| x != own) {
        all.push(Held { octant, ..fresh.clone() });
    }
    for depth in [33, 34, 64, u32::MAX] {
        all.push(Held { depth, ..fresh.clone() });
    }
    for tests in [m as u32 + 1, m as u32 + 2, u32::MAX] {
        // nothing is in hand, or a position, or the first node
        all.push(Held { tests, current: Group::default(), ..fresh.clone() });
        all.push(Held { tests, positions: Group { base: 0, bits: 1 }, ..fresh.clone() });
        all.push(Held { tests, ..fresh.clone() });
    }
    all
}

/// Walks on a record without nodes, after which T's record is lent.
pub fn without_nodes(rng: &mut Rng) -> Vec<Vec<u32>> {
    let t = sample_tree();
    let record = convert(&t, 3, false).record;
    let ground = Ground { bytes: 0, ..Ground::new(&record, 2) };
    let about = target_box(rng, &t);
    let r = ray(rng, &about);
    let fresh = Held::fresh(&r);
    let child = |base: u32, bits: u32| Group { base, bits };
    let low = 24 + fresh.octant;
    let groups = [
        Group::default(),
        fresh.current,
        // node 0 by its slot 0; the same under a full imask; node 1; node 0 and another
        child(0, 1 << low),
        child(0, 1 << low | 0xff),
        child(1, 1 << low),
        child(0, 0xc000_0000),
        // no child, for all its other bits
        child(5, 0x00ff_ffff),
    ];
    let mut walks = vec![];
    for current in groups {
        for bits in [0, 1, 0b101, 0x8000_0000] {
            for stack in [vec![], vec![Group::default()], vec![fresh.current], vec![fresh.current, Group::default()]] {
                let positions = child(0, bits);
                let h = Held { positions, current, depth: stack.len() as u32, stack, ..fresh.clone() };
                let mut run = ground.held(&h);
                run.to_end(&[], 1);
                run.positions(40);
                run.to_end(&[], 1);
                run.lend(record.len());
                run.to_end(&[], 1);
                walks.push(run.words());
            }
        }
    }
    walks.extend(begun_without_nodes(&ground, &r, record.len()));
    vec![ground.case(&walks)]
}

/// Walkers just begun, which are lent no node at first or later, and so many bytes else.
fn begun_without_nodes(ground: &Ground, r: &Ray, bytes: usize) -> [Vec<u32>; 2] {
    // done without a test, and then done on a record with nodes
    let mut first = ground.begun(r);
    assert_eq!(first.to_end(&[], 1), [Step::Done]);
    first.lend(bytes);
    assert_eq!(first.to_end(&[], 1), [Step::Done]);
    // a test, after which a walker counts more tests than there are nodes
    let mut later = ground.begun(r);
    later.lend(bytes);
    assert_eq!(later.step(), Step::Tested);
    later.lend(0);
    assert_eq!(later.to_end(&[], 1), [Step::Refused(10)]);
    later.lend(bytes);
    later.to_end(&[], 1);
    [first.words(), later.words()]
}

/// Walkers whose nodes and positions are near the largest that there may be, and past all words.
pub fn far(rng: &mut Rng, r: &Ray) -> Vec<Held> {
    let fresh = Held::fresh(r);
    let (nodes, positions) = (MOST_NODES as u32, MOST_LEAVES as u32);
    let mut all = vec![];
    for base in [1, 40_000, nodes - 2, nodes - 1, nodes, nodes + 1, u32::MAX] {
        for bits in [0x8000_0000, 0x8000_00ff, 0x0100_007f, 0xff00_00ff] {
            all.push(Held { current: Group { base, bits }, ..fresh.clone() });
            all.push(Held { current: Group::default(), depth: 1, stack: vec![Group { base, bits }], ..fresh.clone() });
        }
    }
    for base in [positions - 33, positions - 32, positions - 31, positions, u32::MAX - 31, u32::MAX] {
        for bits in [1, 0x8000_0000, u32::MAX, rng.bits()] {
            all.push(Held { positions: Group { base, bits }, current: Group::default(), ..fresh.clone() });
        }
    }
    all
}
