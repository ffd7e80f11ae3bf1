//! Half areas and entry distances of many boxes.
use crate::calls;
use crate::rng::Rng;
use crate::timing::row;
use glam::vec3a;
use obvhs::aabb::Aabb;
use obvhs::ray::Ray;
use std::hint::black_box;

const BOXES: usize = 4096;

/// Six floats as a box. Inlined, since a call here would be charged to the Rust in the timed loops.
#[inline(always)]
fn aabb(b: &[f32]) -> Aabb {
    Aabb::new(vec3a(b[0], b[1], b[2]), vec3a(b[3], b[4], b[5]))
}

fn boxes(rng: &mut Rng) -> Vec<f32> {
    let mut all = vec![];
    for _ in 0..BOXES {
        let lo = [(); 3].map(|_| rng.between(-10.0, 10.0));
        all.extend(lo);
        all.extend(lo.map(|x| x + rng.between(0.0, 3.0)));
    }
    all
}

/// Both answers must be the same but for the sign of a zero.
fn same(a: &[f32], b: &[f32]) {
    assert!(a.iter().zip(b).all(|(x, y)| x.to_bits() == y.to_bits() || *x == 0.0 && *y == 0.0));
}

fn half_areas(boxes: &[f32]) {
    let (mut a, mut b) = (vec![0.0f32; BOXES], vec![0.0f32; BOXES]);
    row("half_area, a box", BOXES, &mut || assert_eq!(calls::half_areas(black_box(boxes), &mut a), 0), &mut || {
        black_box(boxes).chunks_exact(6).zip(&mut b).for_each(|(w, o)| *o = aabb(w).half_area());
        black_box(&mut b);
    });
    same(&a, &b);
}

fn entry_distances(boxes: &[f32], rng: &mut Rng) {
    let (mut a, mut b) = (vec![0.0f32; BOXES], vec![0.0f32; BOXES]);
    let mut r = [0.0; 8].map(|_: f32| rng.between(-1.0, 1.0));
    (r[6], r[7]) = (0.0, f32::INFINITY);
    row(
        "Aabb::intersect_ray, a box",
        BOXES,
        &mut || assert_eq!(calls::entry_distances(black_box(boxes), black_box(&r), &mut a), 0),
        &mut || {
            let (s, r) = black_box((boxes, &r));
            let ray = Ray::new(vec3a(r[0], r[1], r[2]), vec3a(r[3], r[4], r[5]), r[6], r[7]);
            s.chunks_exact(6).zip(&mut b).for_each(|(w, o)| *o = aabb(w).intersect_ray(&ray));
            black_box(&mut b);
        },
    );
    same(&a, &b);
}

pub fn rows() {
    let rng = &mut Rng::new(7);
    let boxes = boxes(rng);
    half_areas(&boxes);
    entry_distances(&boxes, rng);
}
