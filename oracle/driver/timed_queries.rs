//! Stored timed queries: records with side tables and spans, and for rays at quarters the answers of any-hit, closest and miss.
//! All day, and over side tables that a conversion writes, they are compared with the published code; other side tables and damaged
//! lists are answered by the rules.
use crate::checks::damage;
use crate::queries::{aimed, odd_ray, queried_tree, room, scene};
use crate::rng::Rng;
use crate::spans::{LAST, odd_side, some_quarter, some_spans};
use crate::store::*;
use crate::timed_causes;
use crate::timed_corners;
use crate::timed_scene::{TimedAsked, TimedScene};
use crate::tree::Tree;
use crate::walk;
use obvhs::ray::Ray;
use std::fmt::{Display, Formatter, Result};

/// The rays asked at quarters: how many there are, how many list something, list less than they pass by boxes, and test fewer nodes.
#[derive(Default)]
pub struct Seen {
    rays: u32,
    listing: u32,
    less: u32,
    fewer: u32,
}

impl Seen {
    /// Notes any-hit's list and tests of a ray, over a record without a fault.
    pub fn note(&mut self, s: &TimedScene, ray: &Ray, any: &walk::Answer) {
        let untimed = walk::any_hit(&s.scene.record, s.scene.list.len(), ray, usize::MAX);
        self.rays += 1;
        self.listing += !any.found.is_empty() as u32;
        self.less += (any.found.len() < untimed.found.len()) as u32;
        self.fewer += (any.tests < untimed.tests) as u32;
    }
}

impl Display for Seen {
    fn fmt(&self, f: &mut Formatter) -> Result {
        let Seen { rays, listing, less, fewer } = self;
        write!(f, "{rays} rays, of which {listing} list something, {less} less than untimed, {fewer} by fewer tests")
    }
}

/// Of some rays that have to do with a tree the one that passes most.
pub fn far_reaching(rng: &mut Rng, t: &Tree, record: &[u8], draws: usize) -> Ray {
    let rays = (0..draws).map(|_| aimed(rng, t, record));
    let passed = |r: &Ray| walk::any_hit(record, t.indices.len(), r, usize::MAX);
    rays.max_by_key(|r| (passed(r).found.len(), passed(r).tests)).unwrap()
}

/// How the side table and the spans of a stored record come about.
#[derive(Clone, Copy)]
enum Hours {
    AllDay,
    Converted,
    Odd,
}

/// A record with rays that nothing refuses but a short list.
fn answered(rng: &mut Rng, k: usize, hours: Hours, rays: usize, seen: &mut Seen) -> Option<Vec<u32>> {
    let (t, c) = queried_tree(rng, k)?;
    let plain = scene(rng, &t, &c);
    let spans = some_spans(rng, plain.panes.len() / 6);
    let mut s = match hours {
        Hours::AllDay => TimedScene::all_day(plain),
        _ => TimedScene::converted(plain, spans),
    };
    if let Hours::Odd = hours {
        s.side = odd_side(rng, &s.side);
    }
    let mut all = vec![];
    for _ in 0..rays {
        let ray = far_reaching(rng, &t, &s.scene.record, 3);
        let quarter = some_quarter(rng, &s.spans);
        let a = if let Hours::Odd = hours { s.defined(&ray, quarter) } else { s.agreed(&ray, quarter) };
        seen.note(&s, &ray, &a.any);
        let room = room(rng, t.indices.len(), a.any.found.len());
        all.push(TimedAsked { room, ..s.asked(&ray, quarter) });
    }
    Some(s.case(&all))
}

/// Damages one thing that queries are asked of.
fn hurt(rng: &mut Rng, s: &mut TimedScene) {
    let (panes, slots) = (s.panes(), s.side.len());
    let plain = &mut s.scene;
    match rng.below(10) {
        0 => plain.record.truncate(plain.record.len().saturating_sub(1 + rng.below(79))),
        1 => plain.panes.push(0),
        2 if !plain.list.is_empty() => {
            let k = rng.below(plain.list.len());
            plain.list[k] = rng.pick(&[panes as u32, u32::MAX]);
        }
        3 if panes > 0 => {
            let k = rng.below(plain.panes.len());
            plain.panes[k] = rng.pick(&[0x7fc0_0000, 0x7f80_0000, 0xff80_0000, 0x5380_0001]);
        }
        4 | 5 => {
            let mut n = plain.list.len();
            (0..1 + rng.below(3)).for_each(|_| damage(rng, &mut plain.record, &mut n));
            plain.list.resize(n, 0);
        }
        6 => s.side.resize(rng.pick(&[0, slots.saturating_sub(1), slots + 1, slots + 16]), 0),
        7 => s.spans.resize(rng.pick(&[0, 1, 2 * panes + 1, 2 * panes + 2]), 0),
        8 if panes > 0 && s.spans.len() >= 2 * panes => {
            let k = rng.below(panes);
            s.spans[2 * k..2 * k + 2].copy_from_slice(&rng.pick(&[[1, 0], [95, 94], [0, 96], [96, 96], [0, 255], [255, 0]]));
        }
        _ => {}
    }
}

/// Rays at quarters of and past the day, over a record, side table or list with something damaged.
fn damaged(rng: &mut Rng, k: usize, rays: usize) -> Option<Vec<u32>> {
    let (t, c) = queried_tree(rng, k)?;
    let plain = scene(rng, &t, &c);
    let spans = some_spans(rng, plain.panes.len() / 6);
    let whole = TimedScene::converted(plain, spans);
    let mut s = whole.clone();
    (0..1 + rng.below(2)).for_each(|_| hurt(rng, &mut s));
    let mut all = vec![];
    for _ in 0..rays {
        let mut ray = far_reaching(rng, &t, &whole.scene.record, 3);
        if rng.once_in(6) {
            ray = odd_ray(rng, &ray);
        }
        let mut q = s.asked(&ray, some_quarter(rng, &whole.spans));
        match rng.below(12) {
            0 => q.quarter = rng.pick(&[LAST + 1, 97, 128, 255]),
            1 => q.panes = rng.pick(&[0, q.panes + 1, q.panes.saturating_sub(1), 1 << 63, usize::MAX]),
            _ => {}
        }
        let needed = s.by_rules(&q).any.found.len();
        q.room = room(rng, s.scene.list.len().min(1500), needed.min(1500));
        all.push(q);
    }
    Some(s.case(&all))
}

pub fn groups(seed: u64) -> Vec<Group> {
    let mut rng = Rng::new(seed);
    let rng = &mut rng;
    let mut all = vec![];
    for (hours, records, rays) in [(Hours::AllDay, 44, 8), (Hours::Converted, 100, 8), (Hours::Odd, 66, 6)] {
        let (mut g, mut seen) = (Group::new(TIMED_QUERIES, 0), Seen::default());
        (0..records).filter_map(|k| answered(rng, k, hours, rays, &mut seen)).for_each(|case| g.add(case));
        println!("timed queries: kind {TIMED_QUERIES}, {seen}");
        all.push(g);
    }
    let mut g = Group::new(TIMED_QUERIES, 0);
    (0..100).filter_map(|k| damaged(rng, k, 4)).for_each(|case| g.add(case));
    all.extend([g, timed_corners::group(rng)]);
    all.extend(timed_causes::groups(rng));
    all
}
