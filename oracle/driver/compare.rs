//! Runs the published code and the rules on many random trees and rays, and stores nothing.
use crate::accept::{Room, conversion_refusal};
use crate::checks::{damage, forward, validated};
use crate::children;
use crate::conversions::some_tree;
use crate::convert::{Converted, convert};
use crate::generate::{BOXES, Shape, tree};
use crate::calls::{agreed_walk, told};
use crate::join::{self, Seen};
use crate::join_draws::{CAUSES, drawn, small, some_panes, spoil};
use crate::loss::{Call, Reported};
use crate::ordering::Orders;
use crate::queries::{aimed, scene};
use crate::record::{Verdict, check};
use crate::rng::Rng;
use crate::timed_compare::AtQuarters;
use crate::tree::Tree;
use crate::zeros::Share;
use obvhs::ray::Ray;

/// A tree of some hundred leaves.
fn large_tree(rng: &mut Rng, k: usize) -> Tree {
    let n = 100 + rng.below(900);
    tree(rng, n, Shape::Balanced, BOXES[k / 50 % BOXES.len()])
}

/// The rays compared, and what came of them.
struct Rays {
    share: Share,
    count: u32,
    hits: u32,
    tests: u64,
    losses: Losses,
}

/// The reports compared, their rays, how many of these lose something, and all losses together. Losses are drawn apart from trees
/// and rays.
struct Losses {
    rng: Rng,
    reports: u32,
    rays: usize,
    losing: usize,
    sum: u64,
}

impl Losses {
    /// A report of these rays over a tree's record by both, with one ray given twice.
    fn compare(&mut self, c: &Converted, mut rays: Vec<Ray>) {
        rays.push(rays[0]);
        let report = Call::new(&mut self.rng, &c.record, &c.list, &rays).agreed();
        self.reports += 1;
        self.rays += rays.len();
        self.losing += report.rays.iter().filter(|&&sum| sum > 0).count();
        self.sum += report.rays.iter().sum::<u64>();
    }
}

impl Rays {
    fn new(seed: u64) -> Rays {
        let losses = Losses { rng: Rng::new(seed), reports: 0, rays: 0, losing: 0, sum: 0 };
        Rays { share: Share::default(), count: 0, hits: 0, tests: 0, losses }
    }

    /// Twenty rays over a tree's record: queries, steps and losses by both.
    fn compare(&mut self, rng: &mut Rng, t: &Tree, c: &Converted) {
        let s = scene(rng, t, c);
        let mut rays = vec![];
        for _ in 0..20 {
            let r = aimed(rng, t, &c.record);
            let told = told(rng, &r);
            let a = s.agreed(&r);
            agreed_walk(&c.record, s.list.len(), &r, &told);
            self.share.note(&r, !a.any.found.is_empty());
            self.count += 1;
            self.hits += !a.closest.found.is_empty() as u32;
            self.tests += a.any.tests as u64;
            rays.push(r);
        }
        self.losses.compare(c, rays);
    }

    fn print(&self) {
        let Rays { share, count, hits, tests, losses } = self;
        println!("rays: {count}, of which {hits} hit a pane; node tests of any-hit: {tests}");
        println!("in all {share} pass something");
        let Losses { reports, rays, losing, sum, .. } = losses;
        println!("reports of losses: {reports} of {rays} rays, of which {losing} lose something; all losses: {sum}");
    }
}

/// The joins compared, drawn apart from the rest: what was seen of the joined trees, and how many calls were refused.
struct Joins {
    rng: Rng,
    seen: Seen,
    refused: u32,
}

impl Joins {
    /// Nothing compared as yet.
    fn new(seed: u64) -> Joins {
        Joins { rng: Rng::new(seed), seen: Seen::default(), refused: 0 }
    }

    /// Two trees joined, at times of some hundred leaves; a call with one cause of refusal, and one with two.
    fn compare(&mut self, k: usize) {
        let rng = &mut self.rng;
        let call = if k % 50 == 0 {
            let (first, second) = (large_tree(rng, k), large_tree(rng, k + 50));
            join::Call::new(&first, some_panes(rng, &first, &second), &second)
        } else {
            drawn(rng, k)
        };
        call.agreed(rng, 8, &mut self.seen);
        let (mut hurt, mut order) = (small(rng), CAUSES);
        rng.shuffle(&mut order);
        order[..2].sort();
        let [later, sooner] = [1, 0].map(|i| order[i]);
        for (cause, ways) in [later, sooner] {
            let way = rng.below(ways);
            spoil(rng, &mut hurt, cause, way);
            assert_eq!(hurt.refused(), cause);
            self.refused += 1;
        }
    }

    fn print(&self) {
        println!("joins: {}; {} refused", self.seen, self.refused);
    }
}

/// Damaged records: how many, and on how many only the published check finds nothing wrong, or only the rules.
#[derive(Default)]
struct Damaged {
    records: u32,
    laxer: u32,
    stricter: u32,
}

impl Damaged {
    /// Five times a record of n positions with one thing damaged.
    fn compare(&mut self, rng: &mut Rng, whole: &[u8], n: usize) {
        for _ in 0..5 {
            let (mut record, mut n) = (whole.to_vec(), n);
            damage(rng, &mut record, &mut n);
            self.records += 1;
            let by_rules = match check(&record, n, usize::MAX) {
                Verdict::Sound(level) => Some(level),
                _ => None,
            };
            if !forward(&record) {
                continue;
            }
            match (by_rules, validated(&record, n)) {
                (None, Some(_)) => self.laxer += 1,
                (Some(_), None) => self.stricter += 1,
                (a, b) => assert_eq!(a, b),
            }
        }
    }

    fn print(&self) {
        let Damaged { records, laxer, stricter } = self;
        println!("damaged records: {records}; unsound, yet validated: {laxer}; sound, yet not validated: {stricter}");
    }
}

pub fn run(seed: u64, trees: usize) -> bool {
    let rng = &mut Rng::new(seed);
    let (mut converted, mut deep, mut seated) = (0, 0, 0);
    let (mut rays, mut damaged) = (Rays::new(seed), Damaged::default());
    let (mut joins, mut orders, mut at_quarters) = (Joins::new(seed), Orders::new(seed), AtQuarters::new(seed));
    for k in 0..trees {
        joins.compare(k);
        let t = if k % 50 == 0 { large_tree(rng, k) } else { some_tree(rng, k) };
        let n = t.indices.len();
        assert_eq!(conversion_refusal(&t, 3, Room::needed(n)), 0);
        orders.compare(k, &t);
        let limit = rng.below(4) as u32;
        let c = convert(&t, limit, rng.once_in(2));
        seated += children::agreed(&t, limit);
        if c.deepest > 31 {
            deep += 1;
            continue;
        }
        converted += 1;
        match check(&c.record, n, usize::MAX) {
            Verdict::Sound(level) => assert!(level == c.deepest && validated(&c.record, n) == Some(level)),
            _ => panic!("a converted record is not sound"),
        }
        damaged.compare(rng, &c.record, n);
        if t.indices.iter().any(|&x| x as usize >= n) {
            continue;
        }
        rays.compare(rng, &t, &c);
        at_quarters.compare(&t, &c);
    }
    println!("trees converted: {converted} (and {deep} with a level over 31); sound by both: {converted}");
    println!("children seated: {seated}, in the published order and by one search fewer for each node");
    damaged.print();
    rays.print();
    joins.print();
    orders.print();
    at_quarters.print();
    damaged.stricter == 0
}
