//! Any-hit, closest and miss, and a walker stepped to its end, beside the published traversals, a call for each ray.
use crate::calls;
use crate::convert::{bvh_of, convert};
use crate::generate::{Boxes, Shape, tree};
use crate::rng::Rng;
use crate::timing::{picked, row};
use crate::tree::{Tree, is_leaf, target, unsigned_zero};
use glam::vec3a;
use obvhs::aabb::Aabb;
use obvhs::cwbvh::CwBvh;
use obvhs::ray::{Ray, RayHit};
use std::hint::black_box;

/// A record with its panes, both ways.
pub struct Scene {
    name: String,
    pub record: Vec<u8>,
    pub list: Vec<u32>,
    pub panes: Vec<f32>,
    bvh: CwBvh,
    boxes: Vec<Aabb>,
}

/// So many rays that the processor does not learn from one run to the next which slots are passed: with 1,024 it does, and
/// code that branches looks better.
const RAYS: usize = 16384;

/// Which rays: how many positions they meet at least and at most, and how many rays there are.
struct Class {
    name: &'static str,
    least: usize,
    most: usize,
    rays: usize,
}

/// The box of each pane, which is that of its leaf.
fn panes(t: &Tree) -> Vec<Aabb> {
    let mut boxes = vec![Aabb::LARGEST; t.indices.len()];
    for v in (0..t.count()).filter(|v| is_leaf(t.link(*v))) {
        boxes[t.indices[target(t.link(v)) as usize] as usize] = t.aabb(v);
    }
    boxes
}

pub fn scene(leaves: usize, boxes: Boxes) -> Scene {
    let mut t = tree(&mut Rng::new(7), leaves, Shape::Balanced, boxes);
    t.indices = (0..leaves as u32).collect();
    let c = convert(&t, 3, true);
    let boxes = panes(&t);
    Scene {
        name: format!("{leaves} leaves"),
        bvh: bvh_of(&c.record, &c.list),
        panes: boxes.iter().flat_map(|b| [b.min.x, b.min.y, b.min.z, b.max.x, b.max.y, b.max.z]).collect(),
        boxes,
        record: c.record,
        list: c.list,
    }
}

#[inline(always)]
fn published(r: &[f32; 8]) -> Ray {
    Ray::new(vec3a(r[0], r[1], r[2]), vec3a(r[3], r[4], r[5]), r[6], r[7])
}

/// A ray from about the tree towards a point of it, some with a short reach.
pub fn ray(rng: &mut Rng) -> [f32; 8] {
    let from = [(); 3].map(|_| rng.between(-20.0, 20.0));
    let to = [rng.between(-8.0, 8.0), rng.between(-4.0, 4.0), rng.between(0.0, 2.0)];
    let reach = if rng.once_in(2) { f32::INFINITY } else { rng.between(0.0, 1.2) };
    [from[0], from[1], from[2], to[0] - from[0], to[1] - from[1], to[2] - from[2], 0.0, reach]
}

/// Rays of a class, or fewer where they are too rare.
fn rays(s: &Scene, class: &Class) -> Vec<[f32; 8]> {
    let rng = &mut Rng::new(11);
    let mut found = vec![];
    for _ in 0..200 * class.rays {
        let r = ray(rng);
        let mut count = 0;
        any_hit(s, &r, |_| count += 1);
        if (class.least..=class.most).contains(&count) {
            found.push(r);
        }
        if found.len() == class.rays {
            break;
        }
    }
    found
}

/// A row, and the best time of a node test each way. The answers were compared before.
fn timed(name: &str, rays: usize, tests: u64, ours: &mut dyn FnMut(), rust: &mut dyn FnMut()) {
    let (a, b) = row(name, rays, ours, rust);
    let each = |x: f64| x * 1e9 * rays as f64 / tests as f64;
    if a.is_finite() {
        println!("    {:.1} node tests a ray, of {:.2} and {:.2} ns", tests as f64 / rays as f64, each(a), each(b));
    }
}

/// The published any-hit, with what is done to each position.
#[inline(always)]
pub fn any_hit(s: &Scene, r: &[f32; 8], mut met: impl FnMut(u32)) {
    s.bvh.ray_traverse_anyhit(published(r), |_, id| met(id as u32));
}

fn any_hits(s: &Scene, name: &str, rays: &[[f32; 8]]) {
    any_hits_by(s, name, rays, |r, list| calls::any_hit(&s.record, list.len(), r, list));
}

/// Any-hit by a call of ours: how many positions it lists, and its node tests.
pub fn any_hits_by(s: &Scene, name: &str, rays: &[[f32; 8]], ours: impl Fn(&[f32; 8], &mut [u32]) -> (u32, u32)) {
    let n = s.list.len();
    let (mut a, mut b) = (vec![0u32; n], vec![0u32; n]);
    let mut tests = 0;
    for r in rays {
        let (count, t) = ours(r, &mut a);
        let mut found = vec![];
        any_hit(s, r, |id| found.push(id));
        assert_eq!(a[..count as usize], found);
        tests += t as u64;
    }
    timed(
        name,
        rays.len(),
        tests,
        &mut || {
            for r in black_box(rays) {
                black_box(ours(r, &mut a));
            }
        },
        &mut || {
            for r in black_box(rays) {
                let mut count = 0;
                any_hit(s, r, |id| {
                    b[count] = id;
                    count += 1;
                });
                black_box(count);
            }
            black_box(&mut b);
        },
    );
}

/// A position's distance by its pane, or +infinity where it is below tmin.
#[inline(always)]
fn distance(s: &Scene, r: &Ray, id: usize) -> f32 {
    let t = s.boxes[s.bvh.primitive_indices[id] as usize].intersect_ray(r);
    if t < r.tmin { f32::INFINITY } else { t }
}

/// A closest hit as the published code finds it: position and distance.
#[inline(always)]
fn closest(s: &Scene, r: &[f32; 8]) -> Option<(u32, f32)> {
    let mut hit = RayHit::none();
    let met = s.bvh.ray_traverse(published(r), &mut hit, |r, id| distance(s, r, id));
    met.then_some((hit.primitive_id, hit.t))
}

fn closests(s: &Scene, name: &str, rays: &[[f32; 8]]) {
    closests_by(s, name, rays, |r| calls::closest(&s.record, &s.list, &s.panes, r));
}

/// Closest by a call of ours: position and distance of a hit, and its node tests.
pub fn closests_by(s: &Scene, name: &str, rays: &[[f32; 8]], ours: impl Fn(&[f32; 8]) -> (Option<(u32, f32)>, u32)) {
    let mut tests = 0;
    for r in rays {
        let (hit, t) = ours(r);
        assert_eq!(hit.map(|(p, t)| (p, t.to_bits())), closest(s, r).map(|(p, t)| (p, unsigned_zero(t).to_bits())));
        tests += t as u64;
    }
    timed(
        name,
        rays.len(),
        tests,
        &mut || {
            for r in black_box(rays) {
                black_box(ours(r));
            }
        },
        &mut || {
            for r in black_box(rays) {
                black_box(closest(s, r));
            }
        },
    );
}

#[inline(always)]
fn missed(s: &Scene, r: &[f32; 8]) -> bool {
    s.bvh.ray_traverse_miss(published(r), |r, id| distance(s, r, id))
}

fn misses(s: &Scene, name: &str, rays: &[[f32; 8]]) {
    misses_by(s, name, rays, |r| calls::miss(&s.record, &s.list, &s.panes, r));
}

/// Miss by a call of ours: whether nothing is nearer than the reach, and its node tests.
pub fn misses_by(s: &Scene, name: &str, rays: &[[f32; 8]], ours: impl Fn(&[f32; 8]) -> (bool, u32)) {
    let mut tests = 0;
    for r in rays {
        let (miss, t) = ours(r);
        assert_eq!(miss, missed(s, r));
        tests += t as u64;
    }
    timed(
        name,
        rays.len(),
        tests,
        &mut || {
            for r in black_box(rays) {
                black_box(ours(r));
            }
        },
        &mut || {
            for r in black_box(rays) {
                black_box(missed(s, r));
            }
        },
    );
}

fn walks(s: &Scene, name: &str, rays: &[[f32; 8]]) {
    walked(s, name, rays, calls::steps);
}

fn lent_walks(s: &Scene, name: &str, rays: &[[f32; 8]]) {
    walked(s, name, rays, calls::lent_steps);
}

/// A walker stepped to its end, whose reports are counted; the published any-hit counts them in its callback.
fn walked(s: &Scene, name: &str, rays: &[[f32; 8]], steps: impl Fn(&[u8], usize, &[f32; 8]) -> (u32, u32)) {
    let n = s.list.len();
    let mut tests = 0;
    for r in rays {
        let (reports, t) = steps(&s.record, n, r);
        let mut count = 0;
        any_hit(s, r, |_| count += 1);
        assert_eq!(reports, count);
        tests += t as u64;
    }
    timed(
        name,
        rays.len(),
        tests,
        &mut || {
            for r in black_box(rays) {
                black_box(steps(&s.record, n, r));
            }
        },
        &mut || {
            for r in black_box(rays) {
                let mut count = 0;
                any_hit(s, r, |_| count += 1);
                black_box(count);
            }
        },
    );
}

/// What makes a query's rows of a scene, a name and rays.
pub type Rows = fn(&Scene, &str, &[[f32; 8]]);

const QUERIES: [(&str, Rows); 5] =
    [("any-hit", any_hits), ("closest", closests), ("miss", misses), ("steps", walks), ("lent steps", lent_walks)];

pub fn rows() {
    rows_of(&QUERIES);
}

/// The rows of these queries, by their names, in each scene for each class of rays.
pub fn rows_of(queries: &[(&str, Rows)]) {
    let class = |name, least, most, rays| Class { name, least, most, rays };
    let nothing = || class("no position met", 0, 0, RAYS);
    let few = || class("1 to 8 met", 1, 8, RAYS);
    let scenes = [
        (scene(64, Boxes::Nested), vec![nothing(), few(), class("9 or more met", 9, usize::MAX, RAYS)]),
        (scene(4096, Boxes::Nested), vec![nothing(), few(), class("20 or more met", 20, usize::MAX, RAYS)]),
        (scene(65536, Boxes::Nested), vec![nothing(), few(), class("40 or more met", 40, usize::MAX, RAYS)]),
        // each of these tests thousands of nodes, so that fewer rays will do
        (scene(65536, Boxes::Spread), vec![class("over 1,024 met", 1025, usize::MAX, 512)]),
    ];
    for (s, classes) in &scenes {
        for class in classes {
            let named: Vec<(String, Rows)> =
                queries.iter().map(|(query, rows)| (format!("{query}, {}, {}", s.name, class.name), *rows)).collect();
            if !named.iter().any(|(name, _)| picked(name)) {
                continue;
            }
            let rays = rays(s, class);
            assert_eq!(rays.len(), class.rays, "too few rays: {}, {}", s.name, class.name);
            for (name, rows) in named.iter().filter(|(name, _)| picked(name)) {
                rows(s, name, &rays);
            }
        }
    }
}
