//! Prints where the published code and the rules differ, each with a smallest input.
use crate::checks::{passes, validated};
use crate::convert::{bvh_of, convert};
use crate::generate::{BOXES, Boxes, Shape, chain, tree};
use crate::query;
use crate::record::{Verdict, check};
use crate::rng::Rng;
use crate::scene::{Scene, endless, through_t};
use crate::small::{Small, records};
use crate::tree::{Tree, sample_tree};
use glam::{Vec3A, power_of_two_not_below, vec3a};
use obvhs::aabb::Aabb;
use obvhs::cwbvh::bvh2_to_cwbvh::Bvh2Converter;
use obvhs::ray::{Ray, RayHit};
use obvhs::seating;

fn scaled(extent: f32) -> f32 {
    extent.max(1e-20) * (1.0 / 255.0)
}

/// The published exponent byte, by the platform's log2 and exp2.
fn published_exponent(extent: f32) -> u32 {
    scaled(extent).log2().ceil().exp2().to_bits() >> 23
}

fn exact_exponent(extent: f32) -> u32 {
    power_of_two_not_below(scaled(extent)).to_bits() >> 23
}

/// Extents from 255 * 2^k on, for each k that the bound allows.
fn logarithm() {
    println!("log2().ceil().exp2() against the next power of two, extents from 255 * 2^k on:");
    let mut all = 0;
    let mut least: Option<f32> = None;
    for k in -74..=33 {
        let start = (255.0 * 2f64.powi(k)) as f32;
        let near = (0..4096).map(|j| f32::from_bits(start.to_bits() - 64 + j));
        let short: Vec<f32> = near.filter(|&x| published_exponent(x) != exact_exponent(x)).collect();
        if let (Some(&first), Some(&last)) = (short.first(), short.last()) {
            all += short.len();
            least = Some(least.map_or(first, |l| l.min(first)));
            if [-74, -1, 3, 4, 10, 33].contains(&k) {
                println!(
                    "  k = {k}: {} extents, {first:?} ({:#010x}) to {last:?}; published {}, exact {}",
                    short.len(),
                    first.to_bits(),
                    published_exponent(first),
                    exact_exponent(first)
                );
            }
        }
    }
    println!("  {all} extents in all; the least is {:?}", least);
    let whole = (0..=u32::MAX >> 1).map(f32::from_bits).take_while(|x| *x <= 2199023255552.0);
    let (mut tried, mut differ, mut over, mut far) = (0u32, 0u32, 0u32, 0u32);
    let mut from_one: Option<f32> = None;
    whole.for_each(|x| {
        let (p, e) = (published_exponent(x), exact_exponent(x));
        tried += 1;
        if p != e {
            differ += 1;
            over += (p + 1 != e) as u32;
            // 255 * 2^k has the fraction bits 0x7f0000
            far += !(0x7f0001..0x7f0040).contains(&(x.to_bits() & 0x7f_ffff)) as u32;
            if x >= 1.0 && from_one.is_none() {
                from_one = Some(x);
            }
        }
    });
    println!("  of all {tried} extents from 0 to 2^41: {differ} differ; not one too low: {over}; further than 63 floats above 255 * 2^k: {far}");
    println!("  the least from 1 on: {from_one:?} ({:#010x})", from_one.unwrap().to_bits());
}

fn zeros() {
    let b = |lo: f32| Aabb::new(Vec3A::splat(lo), Vec3A::splat(1.0));
    let u = b(0.0).union(&b(-0.0)).min.x;
    println!("union of boxes from +0 and from -0: published {u:?}, given as +0");
    let r = Ray::new(vec3a(1.0, 0.5, 0.5), vec3a(-1.0, 0.0, 0.0), 0.0, f32::INFINITY);
    let d = b(0.0).intersect_ray(&r);
    println!("entry of the ray from (1, 0.5, 0.5) along -x into (0,0,0)-(1,1,1): published {d:?}, given as +0");
}

/// The published closest hit with the panes' distances as they are, beside the one with those below tmin hidden.
fn hidden_panes() {
    let s = Scene::sample();
    let bvh = bvh_of(&s.record, &s.list);
    let panes = query::panes_of(&s.panes);
    let r = through_t(0.5, 0.0);
    let mut hit = RayHit::none();
    bvh.ray_traverse(r, &mut hit, |r, id| panes[bvh.primitive_indices[id] as usize].unwrap().intersect_ray(r));
    let found = s.agreed(&r).closest.found;
    println!(
        "T, from (0.5, 0.5, 0.5) along x, tmin 0: published {} at {:?}, with panes below tmin hidden {} at {:?}",
        hit.primitive_id,
        hit.t,
        found[0],
        f32::from_bits(found[1])
    );
}

/// The published any-hit with -0.0 as it is, beside the one with it read as +0.0.
fn negative_zero() {
    let s = Scene::sample();
    let r = endless([-1.0, 0.5, 0.5], [1.0, -0.0, 0.0]);
    let mut listed: Vec<usize> = vec![];
    bvh_of(&s.record, &s.list).ray_traverse_anyhit(r, |_, id| listed.push(id));
    let read = s.agreed(&r).any.found;
    println!("T, from (-1, 0.5, 0.5) along (1, -0.0, 0): published any-hit lists {listed:?}, with -0.0 read as +0.0 {read:?}");
}

fn soundness() {
    println!("the record check beside `validate` without its box comparisons:");
    for Small { what, n, record, ends } in records() {
        let sound = matches!(check(&record, n, usize::MAX), Verdict::Sound(_));
        let validate = match ends.then(|| passes(&record, n)) {
            Some(true) => "passes",
            Some(false) => "fails",
            None => "never ends",
        };
        println!("  {what}, n = {n}: validate {validate}, check {}", if sound { "sound" } else { "unsound" });
    }
}

/// The smallest of many random trees on which the published conversion panics at leaf limit 4.
fn limit_four() {
    for n in 2..40 {
        for seed in 0..3000 {
            let t = tree(&mut Rng::new(seed), n, Shape::Uneven, BOXES[seed as usize % BOXES.len()]);
            if std::panic::catch_unwind(|| convert(&t, 4, false).record.len()).is_err() {
                println!("leaf limit 4: published panics on a tree of {n} leaves (seed {seed}; none smaller found), refused 3");
                return;
            }
        }
    }
}

fn refusals() {
    limit_four();
    let c = convert(&chain(34, Boxes::Point), 3, false);
    let valid = validated(&c.record, 34).is_some();
    let says = if valid { "passes" } else { "fails" };
    println!("a chain of 34 points: published converts to level {}, validate {says}, refused 8", c.deepest);
    let bvh = bvh_of(&c.record, &c.list);
    let r = Ray::new(vec3a(0.0, 0.0, 0.0), vec3a(1.0, 0.0, 0.0), 0.0, f32::NAN);
    println!("tmax NaN: published any-hit tests {} nodes, refused 9", query::any_hit(&bvh, r).tests);
    let r = Ray::new(vec3a(0.0, 0.0, 0.0), vec3a(1.0, 0.0, 0.0), f32::NAN, f32::INFINITY);
    println!("tmin NaN: published any-hit tests {} nodes, refused 9", query::any_hit(&bvh, r).tests);
}

/// The published slot assignment to the two children of T's root, and where a child's box makes all its costs NaN.
fn slots() {
    let mut t = sample_tree();
    let ordered = |t: &Tree| {
        let bvh2 = t.bvh2();
        seating::take();
        Bvh2Converter::new(&bvh2, true, false).order_children(0, &mut [1, 2, !0, !0, !0, !0, !0, !0], 2);
        seating::take().searches
    };
    println!("ordering the children of T: published makes {} searches, the rules 2", ordered(&t));
    t.nodes[7] = f32::NAN.to_bits();
    let ends = if std::panic::catch_unwind(|| ordered(&t)).is_err() { "panics" } else { "ends" };
    println!("with a NaN in the first child's box: published {ends}, the rules leave that child without a slot");
}

pub fn run() -> bool {
    std::panic::set_hook(Box::new(|_| {}));
    refusals();
    slots();
    zeros();
    hidden_panes();
    negative_zero();
    soundness();
    logarithm();
    true
}
