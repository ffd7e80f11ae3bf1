//! Large trees at quarter hours, made by a rule with the spans of their panes, and not stored: digests of what a timed conversion
//! leaves, its side table by the rule, and what timed any-hit lists, which is what the published any-hit lists in its hours.
use crate::convert::convert;
use crate::large::across;
use crate::long::along;
use crate::made::{Made, digest};
use crate::rng::Rng;
use crate::scene::{Scene, ray_words};
use crate::spans::some_quarter;
use crate::store::*;
use crate::timed_queries::Seen;
use crate::timed_scene::TimedScene;

/// Eight floats; any-hit's tests, positions and their digest; the quarter.
fn ray_case(rng: &mut Rng, s: &TimedScene, made: &Made, k: usize, seen: &mut Seen) -> Vec<u32> {
    let r = if k < 2 { along(rng, k == 1) } else { across(rng, made.n) };
    let quarter = some_quarter(rng, &s.spans);
    let any = s.agreed(&r, quarter).any;
    seen.note(s, &r, &any);
    let mut w = ray_words(&r);
    w.extend([any.tests, any.found.len() as u32, digest(any.found), quarter as u32]);
    w
}

/// Leaves, seed, reach, limit, order; nodes, deepest level; digests of the record's words, the list, the side table's words; rays, and the
/// words of each.
fn case(rng: &mut Rng, made: Made, limit: u32, order: bool, rays: usize) -> Vec<u32> {
    let c = convert(&made.tree(), limit, order);
    let s = Scene { record: c.record, list: c.list, panes: made.panes(made.n) };
    let s = TimedScene::converted(s, made.spans());
    let nodes = s.scene.record.len() / 80;
    let mut w = vec![made.n, made.seed, made.reach, limit, order as u32, nodes as u32, c.deepest];
    w.extend([digest(words_of(&s.scene.record)), digest(s.scene.list.iter().copied()), digest(words_of(&s.side))]);
    w.push(rays as u32);
    let mut seen = Seen::default();
    (0..rays).for_each(|k| w.extend(ray_case(rng, &s, &made, k, &mut seen)));
    println!("timed large: {} leaves, limit {limit}: {nodes} nodes, {seen}", made.n);
    w
}

pub fn groups(seed: u64) -> Vec<Group> {
    let mut rng = Rng::new(seed);
    let rng = &mut rng;
    let mut g = Group::new(TIMED_LARGE_TREES, 0);
    for (k, n) in [1, 2, 9, 100, 1000, 3000, 20000, 16384].into_iter().enumerate() {
        let made = Made { n, seed: rng.bits(), reach: rng.pick(&[1, 8, 64, 500, 4000]) };
        g.add(case(rng, made, k as u32 % 4, k % 3 == 0, 12));
    }
    vec![g]
}
