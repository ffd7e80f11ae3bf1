//! The slot test on the nodes that rays reach, and the node rule on a whole record.
use crate::calls;
use crate::convert::{bvh_of, convert};
use crate::generate::{Boxes, Shape, tree};
use crate::rng::Rng;
use crate::timing::{alone, row};
use glam::vec3a;
use obvhs::cwbvh::CwBvh;
use obvhs::ray::Ray;
use std::hint::black_box;

const LEAVES: usize = 4096;
// So many that the processor does not learn from one run to the next which slots are passed: with 256 it does.
const RAYS: usize = 1024;

/// A ray from outside the tree towards a point of it, as eight floats.
fn ray(rng: &mut Rng) -> [f32; 8] {
    let from = [(); 3].map(|_| rng.between(-20.0, 20.0));
    let to = [rng.between(-8.0, 8.0), rng.between(-4.0, 4.0), rng.between(0.0, 2.0)];
    [from[0], from[1], from[2], to[0] - from[0], to[1] - from[1], to[2] - from[2], 0.0, f32::INFINITY]
}

fn published(r: &[f32]) -> Ray {
    Ray::new(vec3a(r[0], r[1], r[2]), vec3a(r[3], r[4], r[5]), r[6], r[7])
}

/// The bytes of the nodes that a ray reaches, one after the other.
fn reached(bvh: &CwBvh, record: &[u8], ray: &Ray) -> Vec<u8> {
    let octant = bvh.new_ray_traversal(*ray).oct_inv4;
    let mut bytes = vec![];
    let mut due = vec![0usize];
    while let Some(i) = due.pop() {
        let node = &bvh.nodes[i];
        bytes.extend(&record[80 * i..80 * i + 80]);
        let hits = node.intersect_ray_basic(ray, octant);
        for slot in (0..8).filter(|s| node.imask >> s & 1 == 1 && hits >> (24 + (s ^ octant & 7)) & 1 == 1) {
            let rank = (node.imask & !(u8::MAX << slot)).count_ones();
            due.push((node.child_base_idx + rank) as usize);
        }
    }
    bytes
}

/// A ray, the nodes that it reaches, and the same as published.
struct Run {
    ray: [f32; 8],
    record: Vec<u8>,
    bvh: CwBvh,
}

fn slot_tests(runs: &[Run]) {
    let tests = runs.iter().map(|r| r.bvh.nodes.len()).sum();
    let (mut a, mut b) = (vec![0u32; tests], vec![0u32; tests]);
    row(
        "slot test (intersect_ray_basic), a node reached",
        tests,
        &mut || {
            let mut at = 0;
            for run in black_box(runs) {
                at += calls::hit_masks(&run.record, &run.ray, &mut a[at..]);
            }
            assert_eq!(at, tests);
        },
        &mut || {
            let mut at = 0;
            for run in black_box(runs) {
                let ray = published(&run.ray);
                let octant = run.bvh.new_ray_traversal(ray).oct_inv4;
                let nodes = &run.bvh.nodes;
                nodes.iter().zip(&mut b[at..]).for_each(|(node, o)| *o = node.intersect_ray_basic(&ray, octant));
                at += nodes.len();
            }
            assert_eq!(at, tests);
        },
    );
    assert_eq!(a, b);
}

pub fn rows() {
    let rng = &mut Rng::new(7);
    let c = convert(&tree(rng, LEAVES, Shape::Balanced, Boxes::Nested), 3, true);
    let bvh = bvh_of(&c.record, &c.list);
    let run = |ray: [f32; 8]| {
        let record = reached(&bvh, &c.record, &published(&ray));
        let bvh = bvh_of(&record, &[]);
        Run { ray, record, bvh }
    };
    let runs: Vec<Run> = (0..RAYS).map(|_| run(ray(rng))).collect();
    slot_tests(&runs);
    let m = c.record.len() / 80;
    alone("node rule, a node", m, &mut || assert_eq!(calls::rules(black_box(&c.record), LEAVES), m));
}
