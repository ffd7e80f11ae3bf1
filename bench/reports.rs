//! A report of 4,096 rays as one call, beside as many published any-hits whose positions' losses are added up a ray and a pane.
use crate::calls;
use crate::generate::Boxes;
use crate::queries::{Scene, any_hit, ray, scene};
use crate::rng::Rng;
use crate::timing::{picked, row};
use std::hint::black_box;

const RAYS: usize = 4096;

/// The totals of rays and of panes by the published any-hit.
fn added(s: &Scene, losses: &[u32], rays: &[[f32; 8]], ray_totals: &mut [u64], pane_totals: &mut [u64]) {
    pane_totals.fill(0);
    for (r, total) in rays.iter().zip(ray_totals) {
        *total = 0;
        any_hit(s, r, |id| {
            let pane = s.list[id as usize] as usize;
            let loss = losses[pane] as u64;
            *total += loss;
            pane_totals[pane] += loss;
        });
    }
}

/// A report by a call of ours, which fills the totals of rays and of panes.
pub fn report_by(s: &Scene, name: &str, losses: &[u32], rays: &[[f32; 8]], ours: impl Fn(&[f32], &mut [u64], &mut [u64]) -> u64) {
    let (mut a, mut b) = (vec![0; rays.len()], vec![0; losses.len()]);
    let (mut c, mut d) = (a.clone(), b.clone());
    ours(rays.as_flattened(), &mut a, &mut b);
    added(s, losses, rays, &mut c, &mut d);
    assert!(a == c && b == d);
    row(
        name,
        rays.len(),
        &mut || {
            black_box(ours(black_box(rays).as_flattened(), &mut a, &mut b));
        },
        &mut || added(s, losses, black_box(rays), black_box(&mut c), &mut d),
    );
}

/// Each scene's report: its name, and losses and rays as drawn.
pub fn each_report(query: &str, report: fn(&Scene, &str, &[u32], &[[f32; 8]])) {
    for leaves in [64, 4096, 65536] {
        let name = format!("{query}, {leaves} leaves, {RAYS} rays, a ray");
        if !picked(&name) {
            continue;
        }
        let s = scene(leaves, Boxes::Nested);
        let rng = &mut Rng::new(13);
        let losses: Vec<u32> = (0..leaves).map(|_| rng.below(1_000_001) as u32).collect();
        let rays: Vec<[f32; 8]> = (0..RAYS).map(|_| ray(rng)).collect();
        report(&s, &name, &losses, &rays);
    }
}

pub fn rows() {
    each_report("report", |s, name, losses, rays| {
        report_by(s, name, losses, rays, |rays, a, b| calls::report(&s.record, &s.list, losses, rays, a, b))
    });
}
