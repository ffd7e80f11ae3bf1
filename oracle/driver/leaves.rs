//! Stored answers of the leaf functions: rays, boxes, exponent bytes and quantised ends.
use crate::accept::{accepted_box, accepted_ray};
use crate::convert::{bvh_of, convert};
use crate::generate::{any_box, bounded_bits, corner, ray};
use crate::rng::Rng;
use crate::store::*;
use crate::tree::{BOUND, Tree, inner, leaf, unsigned_zero};
use crate::zeros::{Share, entered};
use glam::{Vec3A, vec3a};
use obvhs::aabb::Aabb;
use obvhs::ray::{Ray, safe_inverse};

/// The bits of a float, with one pattern for every NaN.
pub fn word(x: f32) -> u32 {
    if x.is_nan() { 0x7fc0_0000 } else { x.to_bits() }
}

fn words3(v: Vec3A) -> [u32; 3] {
    [word(v.x), word(v.y), word(v.z)]
}

fn corner3(rng: &mut Rng) -> Vec3A {
    vec3a(corner(rng), corner(rng), corner(rng))
}

/// A box whose bounds are within the limit, in most cases, or any floats.
fn box_case(rng: &mut Rng) -> Aabb {
    match rng.below(5) {
        0 => Aabb::new(corner3(rng), corner3(rng)),
        1 => {
            let c = |rng: &mut Rng| rng.pick(&[0.0, -0.0, 1.0, -1.0, BOUND, -BOUND]);
            Aabb::new(vec3a(c(rng), c(rng), c(rng)), vec3a(c(rng), c(rng), c(rng)))
        }
        _ => any_box(rng),
    }
}

fn safe_inverses(rng: &mut Rng, count: usize) -> Group {
    let mut g = Group::new(SAFE_INVERSE, 2);
    for _ in 0..count {
        let v = corner(rng);
        g.add(vec![word(v), word(safe_inverse(v))]);
    }
    g
}

/// The octant that a published traversal starts with, as one of its four equal bytes.
fn octant(direction: Vec3A) -> u32 {
    let o = bvh_of(&[], &[]).new_traversal(direction).oct_inv4;
    assert_eq!(o, (o & 0xff) * 0x0101_0101);
    o & 0xff
}

fn rays(rng: &mut Rng, count: usize) -> Group {
    let mut g = Group::new(RAY, 13);
    let mut share = Share::default();
    for _ in 0..count {
        let b = any_box(rng);
        let mut r = ray(rng, &b);
        // one component, tmin or tmax at a corner, or all
        match rng.below(9) {
            0 => r = Ray::new(corner3(rng), corner3(rng), corner(rng), corner(rng)),
            1 => r = Ray::new(r.origin, corner3(rng), corner(rng), r.tmax),
            2 => r.origin.x = corner(rng),
            3 => r.tmax = corner(rng),
            4 => r.tmin = corner(rng),
            5 => r.tmin = rng.pick(&[f32::NAN, f32::NAN, f32::INFINITY, f32::NEG_INFINITY]),
            _ => {}
        }
        let mut case = vec![];
        case.extend(words3(r.origin));
        case.extend(words3(r.direction));
        case.extend([word(r.tmin), word(r.tmax)]);
        let read = entered(&r);
        case.extend(words3(read.inv_direction));
        case.extend([octant(read.direction), accepted_ray(&r) as u32]);
        share.note(&r, accepted_ray(&r));
        g.add(case);
    }
    println!("leaves: kind {RAY}, {share} are accepted");
    g
}

fn boxes(rng: &mut Rng, count: usize) -> Group {
    let mut g = Group::new(BOX, 11);
    for _ in 0..count {
        let b = box_case(rng);
        let mut case = vec![];
        case.extend(words3(b.min));
        case.extend(words3(b.max));
        case.push(word(b.half_area()));
        case.extend(words3(b.center()));
        case.push(accepted_box(&b) as u32);
        g.add(case);
    }
    g
}

fn unions(rng: &mut Rng, count: usize) -> Group {
    let mut g = Group::new(UNION, 18);
    for _ in 0..count {
        let (a, b) = (box_case(rng), box_case(rng));
        let u = a.union(&b);
        let mut case = vec![];
        for v in [a.min, a.max, b.min, b.max] {
            case.extend(words3(v));
        }
        for v in [u.min, u.max] {
            case.extend([v.x, v.y, v.z].map(|x| word(unsigned_zero(x))));
        }
        g.add(case);
    }
    g
}

fn entries(rng: &mut Rng, count: usize) -> Group {
    let mut g = Group::new(ENTRY, 13);
    let mut share = Share::default();
    for k in 0..count {
        let b = if k % 16 == 0 { box_case(rng) } else { any_box(rng) };
        let mut r = ray(rng, &b);
        if k % 16 == 1 {
            r = Ray::new(corner3(rng), corner3(rng), 0.0, 1.0);
        }
        let mut case = vec![];
        for v in [b.min, b.max, r.origin, r.direction] {
            case.extend(words3(v));
        }
        let distance = unsigned_zero(b.intersect_ray(&entered(&r)));
        case.push(word(distance));
        share.note(&r, distance < f32::INFINITY);
        g.add(case);
    }
    println!("leaves: kind {ENTRY}, {share} meet the box");
    g
}

/// A coordinate's two ends: extents about 255 * 2^k, zero, subnormal, whole bound, any bits.
fn span(rng: &mut Rng, k: usize) -> (f32, f32) {
    let (a, b) = match rng.below(6) {
        0 | 1 => {
            let power = 2f64.powi((k % 105) as i32 - 74);
            let extent = (255.0 * power) as f32;
            let near = f32::from_bits((extent.to_bits() + rng.below(7) as u32).saturating_sub(3));
            (rng.pick(&[0.0, -0.0]), near.min(BOUND))
        }
        2 => {
            let lo = bounded_bits(rng);
            (lo, f32::from_bits(lo.to_bits().saturating_add(rng.below(1000) as u32)))
        }
        3 => (rng.pick(&[0.0, -0.0, 1.0, BOUND, -BOUND]), rng.pick(&[0.0, -0.0, 1.0, BOUND, -BOUND])),
        4 => (bounded_bits(rng), bounded_bits(rng)),
        _ => (rng.between(-100.0, 100.0), rng.between(-100.0, 100.0)),
    };
    let held = |x: f32| x.clamp(-BOUND, BOUND);
    let (a, b) = (held(a), held(b));
    if a <= b { (a, b) } else { (b, a) }
}

/// The e bytes that the published conversion writes for a one-leaf tree of the box.
fn exponents(rng: &mut Rng, count: usize) -> Group {
    let mut g = Group::new(EXPONENT, 3);
    for k in 0..count / 3 {
        let s = [span(rng, k), span(rng, k + 35), span(rng, k + 70)];
        let b = Aabb::new(vec3a(s[0].0, s[1].0, s[2].0), vec3a(s[0].1, s[1].1, s[2].1));
        let mut t = Tree { nodes: vec![], indices: vec![0] };
        t.push(&b, leaf(0));
        let record = convert(&t, 1, false).record;
        for a in 0..3 {
            g.add(vec![s[a].0.to_bits(), s[a].1.to_bits(), record[12 + a] as u32]);
        }
    }
    g
}

/// A value before rounding to a byte: about a whole number of 0 to 255, or any float but NaN.
fn grid_value(rng: &mut Rng) -> f32 {
    let x = match rng.below(5) {
        0 => {
            let b = (rng.below(258) as f32).to_bits();
            f32::from_bits((b + rng.below(3) as u32).saturating_sub(1)) * rng.pick(&[1.0, 1.0, 1.0, -1.0])
        }
        1 => rng.between(-3.0, 260.0),
        2 => rng.pick(&[0.0, -0.0, 1e-40, -1e-40, 255.0, 256.0, -1.0, 1e30, -1e30, BOUND]),
        3 => rng.below(256) as f32 + 0.5,
        _ => corner(rng),
    };
    if x.is_nan() || x.is_infinite() { 0.0 } else { x }
}

/// The bytes that the published conversion writes for leaf ends x in a root from 0 to 255, whose scale is 1.
fn ends(rng: &mut Rng, count: usize) -> Group {
    let mut g = Group::new(ENDS, 2);
    for _ in 0..count / 6 {
        let mut t = Tree { nodes: vec![], indices: vec![0, 1] };
        t.push(&Aabb::new(Vec3A::ZERO, Vec3A::splat(255.0)), inner(1));
        let points = [[(); 3].map(|_| grid_value(rng)), [(); 3].map(|_| grid_value(rng))];
        for (k, p) in points.iter().enumerate() {
            t.push(&Aabb::from_point(Vec3A::from(*p)), leaf(k as u32));
        }
        // Limit 1 and no ordering: leaf k stands in slot k.
        let record = convert(&t, 1, false).record;
        assert!(record[12..15] == [127, 127, 127] && record[24] == 0x20 && record[25] == 0x21);
        for (k, p) in points.iter().enumerate() {
            for (a, x) in p.iter().enumerate() {
                let (lo, hi) = (record[32 + 16 * a + k], record[40 + 16 * a + k]);
                g.add(vec![x.to_bits(), lo as u32 | (hi as u32) << 8]);
            }
        }
    }
    g
}

pub fn groups(seed: u64) -> Vec<Group> {
    let mut rng = Rng::new(seed);
    let rng = &mut rng;
    vec![
        safe_inverses(rng, 3000),
        rays(rng, 1000),
        boxes(rng, 1500),
        unions(rng, 500),
        entries(rng, 2000),
        exponents(rng, 3000),
        ends(rng, 3000),
    ]
}
