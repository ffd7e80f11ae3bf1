//! Large trees, made by a rule and not stored: digests of all that the published conversion writes, and the answers of the
//! published traversals on its records.
use crate::calls::{agreed_walk, told};
use crate::convert::convert;
use crate::generate::reach;
use crate::leaves::word;
use crate::long::along;
use crate::made::{MIDDLE, Made, digest};
use crate::record::{Verdict, check};
use crate::rng::Rng;
use crate::scene::{Scene, ray_words};
use crate::store::*;
use crate::walker::Step;
use glam::vec3a;
use obvhs::ray::Ray;

/// A ray through the row of boxes: from one place near it to another.
pub fn across(rng: &mut Rng, n: u32) -> Ray {
    let long = 16.0 * n as f32;
    let middle = MIDDLE as f32;
    let place = |rng: &mut Rng, far: f32| {
        vec3a(rng.between(-0.1, 1.1) * long, middle + rng.between(-far, far), middle + rng.between(-far, far))
    };
    let (from, to) = (place(rng, 300.0), place(rng, 30.0));
    let slower = rng.pick(&[1.0, 0.001]);
    // the place aimed at is at distance 1, or 1000
    let tmin = if rng.once_in(2) { 0.0 } else { rng.between(-0.1, 1.1) / slower };
    Ray::new(from, (to - from) * slower, tmin, reach(rng))
}

/// Tests as 0 and reports as one more than the position, without the end.
fn walk_digest(steps: &[Step]) -> u32 {
    digest(steps.iter().filter_map(|s| match s {
        Step::Tested => Some(0),
        Step::Reported(p) => Some(p + 1),
        _ => None,
    }))
}

/// Eight floats; any-hit's tests, positions and their digest; closest's tests, whether it hit, position and distance (0 and 0
/// where it did not); miss's tests and whether it missed; three distances to tell in turn; the steps before the end, and the
/// digest of these.
fn ray_case(rng: &mut Rng, s: &Scene, r: &Ray) -> Vec<u32> {
    let a = s.agreed(r);
    let told: Vec<f32> = told(rng, r).into_iter().cycle().take(3).collect();
    let steps = agreed_walk(&s.record, s.list.len(), r, &told);
    let hit = !a.closest.found.is_empty();
    let found = if hit { a.closest.found } else { vec![0, 0] };
    let mut w = ray_words(r);
    w.extend([a.any.tests, a.any.found.len() as u32, digest(a.any.found)]);
    w.extend([a.closest.tests, hit as u32, found[0], found[1]]);
    w.extend([a.miss.tests, a.miss.found[0]]);
    w.extend(told.iter().map(|&x| word(x)));
    w.extend([steps.len() as u32 - 1, walk_digest(&steps)]);
    w
}

/// Leaves, seed, reach, limit, order; nodes, deepest level; digests of decision words, cost bits, the record's words, the list;
/// rays, and the words of each.
fn case(rng: &mut Rng, made: Made, limit: u32, order: bool, rays: usize) -> Vec<u32> {
    let c = convert(&made.tree(), limit, order);
    let s = Scene { record: c.record, list: c.list, panes: made.panes(made.n) };
    let nodes = s.record.len() / 80;
    assert!(matches!(check(&s.record, s.list.len(), usize::MAX), Verdict::Sound(level) if level == c.deepest));
    let mut w = vec![made.n, made.seed, made.reach, limit, order as u32, nodes as u32, c.deepest];
    w.extend([digest(c.decisions), digest(c.costs), digest(words_of(&s.record)), digest(s.list.iter().copied())]);
    w.push(rays as u32);
    for k in 0..rays {
        let r = if k < 2 { along(rng, k == 1) } else { across(rng, made.n) };
        w.extend(ray_case(rng, &s, &r));
    }
    println!("large: {} leaves, limit {limit}: {nodes} nodes, level {}", made.n, c.deepest);
    w
}

pub fn groups(seed: u64) -> Vec<Group> {
    let mut rng = Rng::new(seed);
    let rng = &mut rng;
    let mut g = Group::new(LARGE_TREES, 0);
    for (k, n) in [1, 2, 3, 24, 100, 1000, 2000, 3000, 5000, 20000, 16384, 10000].into_iter().enumerate() {
        let reach = rng.pick(&[1, 8, 64, 500, 4000]);
        let made = Made { n, seed: rng.bits(), reach };
        g.add(case(rng, made, k as u32 % 4, k % 3 == 0, 12));
    }
    vec![g]
}
