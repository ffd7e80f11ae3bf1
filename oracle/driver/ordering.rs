//! Ordering: each tree is converted with its children ordered, and with them as gathered. In both records a ray must meet the same
//! panes by the published any-hit, each as often, by as many node tests; it must be blocked in both or in neither; and a report over
//! both must be the same. Where positions stand, and the sequence in which they come, may differ.
use crate::accept::{Room, accepted_ray, conversion_refusal};
use crate::convert::{Converted, bvh_of, convert};
use crate::generate::{BOXES, Boxes, SHAPES, any_box, chain, inside, ray, tree};
use crate::loss::{Call, Reported};
use crate::queries::{aimed, panes, slot_boxes, target_box};
use crate::query;
use crate::rng::Rng;
use crate::scene::ray_words;
use crate::store::*;
use crate::tree::{Tree, is_leaf, sample_tree, target};
use obvhs::aabb::Aabb;
use obvhs::cwbvh::CwBvh;
use obvhs::ray::Ray;
use std::cmp::Reverse;
use std::collections::BTreeSet;
use std::fmt::{Display, Formatter, Result};

/// What a ray meets: its node tests, and the index words of panes in rising order, each as often as it is met.
struct Met {
    tests: u32,
    panes: Vec<u32>,
}

/// A tree converted at one leaf limit: with its children ordered, and with them as gathered.
struct Pair {
    ways: [Converted; 2],
    bvhs: [CwBvh; 2],
}

/// What was compared: trees (with a level over 31, with a child outside its parent's box, with a flat box, with an index word
/// repeated, with records that differ), rays (that meet something, that meet panes in two sequences), panes, tests, rays asked
/// whether they are blocked (and that are), reports. And what may differ, of the rays asked: closest's distance and tests, and
/// miss's tests.
#[derive(Default)]
pub struct Seen {
    trees: u32,
    deep: u32,
    outside: u32,
    flat: u32,
    repeated: u32,
    unlike: u32,
    rays: u32,
    meeting: u32,
    resequenced: u32,
    panes: u64,
    tests: u64,
    asked: u32,
    blocked: u32,
    reports: u32,
    farther: u32,
    closest_tests: u32,
    miss_tests: u32,
}

/// Whether some node of a tree has a child that sticks out of its box.
fn outside(t: &Tree) -> bool {
    let sticks_out = |v: usize, child: usize| {
        let (b, c) = (t.aabb(v), t.aabb(child));
        !(b.min.cmple(c.min).all() && c.max.cmple(b.max).all())
    };
    let mut inner = (0..t.count()).filter(|&v| !is_leaf(t.link(v)));
    inner.any(|v| (0..2).any(|k| sticks_out(v, target(t.link(v)) as usize + k)))
}

/// Whether some box of a tree has no extent on some axis.
fn flat(t: &Tree) -> bool {
    (0..t.count()).any(|v| !t.aabb(v).min.cmplt(t.aabb(v).max).all())
}

/// Whether an index word of a tree stands there twice.
fn repeated(t: &Tree) -> bool {
    t.indices.iter().collect::<BTreeSet<_>>().len() < t.indices.len()
}

/// Gives inner nodes the boxes of any nodes, so that children stick out.
fn misplace(rng: &mut Rng, t: &mut Tree) {
    for v in (0..t.count()).filter(|&v| !is_leaf(t.link(v))).collect::<Vec<_>>() {
        if rng.once_in(2) {
            let from = 7 * rng.below(t.count());
            t.nodes.copy_within(from..from + 6, 7 * v);
        }
    }
}

/// Takes the extent of boxes away on some axes, also of boxes above others.
fn flatten(rng: &mut Rng, t: &mut Tree) {
    for end in (0..t.count()).flat_map(|v| 7 * v..7 * v + 3) {
        if rng.once_in(3) {
            t.nodes[end + 3] = t.nodes[end];
        }
    }
}

/// A tree of so many leaves: mostly with children outside or with flat boxes.
fn drawn(rng: &mut Rng, k: usize, n: usize) -> Tree {
    let kind = match k % 4 {
        0 => Boxes::Outside,
        1 => Boxes::Flat,
        _ => BOXES[k / 4 % BOXES.len()],
    };
    let shape = rng.pick(&SHAPES);
    let mut t = tree(rng, n, shape, kind);
    if rng.once_in(3) {
        flatten(rng, &mut t);
    }
    if rng.once_in(3) {
        misplace(rng, &mut t);
    }
    t
}

/// How many leaves a tree has: seldom none or one, mostly some, at times some dozen.
fn some_leaves(rng: &mut Rng) -> usize {
    match rng.below(20) {
        0 => rng.below(3),
        1..9 => 2 + rng.below(9),
        9..18 => 8 + rng.below(20),
        _ => 20 + rng.below(60),
    }
}

/// A ray from a point of one box, or from as far back again, towards a point of another, which is at distance 1 or 2.
fn through(rng: &mut Rng, one: &Aabb, another: &Aabb) -> Ray {
    let (from, to) = (inside(rng, one), inside(rng, another));
    let start = if rng.once_in(3) { from } else { from - (to - from) };
    let tmin = if rng.once_in(3) { rng.between(-1.0, 2.0) } else { 0.0 };
    let tmax = if rng.once_in(3) { rng.between(0.0, 3.0) } else { f32::INFINITY };
    Ray::new(start, to - from, tmin, tmax)
}

impl Pair {
    /// Both conversions of an accepted tree, which have as many nodes and the same deepest level.
    fn new(t: &Tree, limit: u32) -> Pair {
        assert_eq!(conversion_refusal(t, limit, Room::needed(t.indices.len())), 0);
        let ways = [true, false].map(|order| convert(t, limit, order));
        assert_eq!(ways[0].record.len(), ways[1].record.len());
        assert_eq!(ways[0].deepest, ways[1].deepest);
        let bvhs = ways.each_ref().map(|c| bvh_of(&c.record, &c.list));
        Pair { ways, bvhs }
    }

    /// Whether no ray is run over these records: their level is past those that are converted.
    fn deep(&self) -> bool {
        self.ways[0].deepest > 31
    }

    /// A box to aim at: one of the tree, or of a slot of the record.
    fn target(&self, rng: &mut Rng, t: &Tree) -> Aabb {
        let slots = slot_boxes(&self.ways[0].record);
        if slots.is_empty() || rng.once_in(3) { target_box(rng, t) } else { rng.pick(&slots) }
    }

    /// A ray through two boxes, or one that has to do with the tree or with one of the two records.
    fn ray(&self, rng: &mut Rng, t: &Tree) -> Ray {
        let way = rng.below(2);
        let other = aimed(rng, t, &self.ways[way].record);
        let [one, another] = [(); 2].map(|_| self.target(rng, t));
        let across = through(rng, &one, &another);
        if rng.once_in(2) && accepted_ray(&across) { across } else { other }
    }

    /// A ray's node tests one way, and the index words of the positions that it meets, as they come.
    fn walked(&self, r: &Ray, way: usize) -> (u32, Vec<u32>) {
        let any = query::any_hit(&self.bvhs[way], *r);
        (any.tests, any.found.iter().map(|&p| self.ways[way].list[p as usize]).collect())
    }

    /// What a ray meets both ways, which must be the same.
    fn met(&self, r: &Ray, seen: &mut Seen) -> Met {
        let [(tests, ordered), (others, gathered)] = [0, 1].map(|way| self.walked(r, way));
        let rising = |panes: &[u32]| {
            let mut all = panes.to_vec();
            all.sort();
            all
        };
        let panes = rising(&ordered);
        assert_eq!(tests, others);
        assert_eq!(panes, rising(&gathered));
        seen.rays += 1;
        seen.meeting += !panes.is_empty() as u32;
        seen.resequenced += (ordered != gathered) as u32;
        seen.panes += panes.len() as u64;
        seen.tests += tests as u64;
        Met { tests, panes }
    }

    /// Whether these panes block a ray, which must be so in both records or in neither, where closest then has a hit.
    fn blocked(&self, panes: &[Option<Aabb>], r: &Ray, seen: &mut Seen) -> bool {
        let [(hit, miss), (other_hit, other_miss)] =
            self.bvhs.each_ref().map(|bvh| (query::closest(bvh, panes, *r), query::miss(bvh, panes, *r)));
        let missed = miss.found == [1];
        assert_eq!(miss.found, other_miss.found);
        assert!(missed == hit.found.is_empty() && missed == other_hit.found.is_empty());
        seen.asked += 1;
        seen.blocked += !missed as u32;
        seen.farther += (hit.found.get(1) != other_hit.found.get(1)) as u32;
        seen.closest_tests += (hit.tests != other_hit.tests) as u32;
        seen.miss_tests += (miss.tests != other_miss.tests) as u32;
        !missed
    }

    /// A report of these rays over both records, with the same losses: its tests and all totals must be the same.
    fn report(&self, rng: &mut Rng, rays: &[Ray], seen: &mut Seen) {
        let [ordered, gathered] = &self.ways;
        let call = Call::new(rng, &ordered.record, &ordered.list, rays);
        let other = Call { record: gathered.record.clone(), list: gathered.list.clone(), ..call.clone() };
        assert_eq!(call.agreed(), other.agreed());
        seen.reports += 1;
    }
}

impl Seen {
    /// Notes a tree that was converted both ways.
    fn note(&mut self, t: &Tree, pair: &Pair) {
        self.trees += 1;
        self.deep += pair.deep() as u32;
        self.outside += outside(t) as u32;
        self.flat += flat(t) as u32;
        self.repeated += repeated(t) as u32;
        self.unlike += (pair.ways[0].record != pair.ways[1].record) as u32;
    }
}

impl Display for Seen {
    fn fmt(&self, f: &mut Formatter) -> Result {
        let Seen { trees, deep, outside, flat, repeated, unlike, .. } = self;
        write!(f, "{trees} trees ({outside} with children outside, {flat} with flat boxes, {repeated} with index words repeated, ")?;
        write!(f, "{deep} with a level over 31), {unlike} with records that differ; ")?;
        let Seen { rays, meeting, resequenced, panes, tests, asked, blocked, reports, .. } = self;
        write!(f, "both ways the same for {rays} rays, of which {meeting} meet {panes} panes, {resequenced} in two sequences, ")?;
        write!(f, "by {tests} node tests in all; for {asked} rays of which {blocked} are blocked; and for {reports} reports; ")?;
        let Seen { farther, closest_tests, miss_tests, .. } = self;
        write!(f, "closest has another distance for {farther}, and other tests for {closest_tests}, miss for {miss_tests}")
    }
}

/// The trees compared both ways, with leaf limits and rays drawn apart from the rest.
pub struct Orders {
    rng: Rng,
    seen: Seen,
}

impl Orders {
    /// Nothing compared as yet.
    pub fn new(seed: u64) -> Orders {
        Orders { rng: Rng::new(seed), seen: Seen::default() }
    }

    /// Eight rays over both records of a tree; and where its index words name panes, whether these block them, and a report.
    fn compare_tree(&mut self, t: &Tree) {
        let Orders { rng, seen } = self;
        let pair = Pair::new(t, rng.below(4) as u32);
        seen.note(t, &pair);
        if pair.deep() {
            return;
        }
        let rays: Vec<Ray> = (0..8).map(|_| pair.ray(rng, t)).collect();
        rays.iter().for_each(|r| drop(pair.met(r, seen)));
        if t.indices.iter().all(|&x| (x as usize) < t.indices.len()) {
            let boxes = query::panes_of(&panes(rng, t));
            rays.iter().for_each(|r| drop(pair.blocked(&boxes, r, seen)));
            pair.report(rng, &rays, seen);
        }
    }

    /// This tree, and one more.
    pub fn compare(&mut self, k: usize, t: &Tree) {
        self.compare_tree(t);
        let n = some_leaves(&mut self.rng);
        let other = drawn(&mut self.rng, k, n);
        self.compare_tree(&other);
    }

    /// The line of what was compared.
    pub fn print(&self) {
        println!("ordered and not: {}", self.seen);
    }
}

/// The stored cases, and what they come to.
struct Stored {
    rng: Rng,
    seen: Seen,
    cases: Group,
}

impl Stored {
    /// Rays to store for a tree: of some dozen the five that meet most, in two sequences if they do; one more; and one about any box,
    /// which mostly meets nothing.
    fn rays(&mut self, t: &Tree, pair: &Pair) -> Vec<Ray> {
        let rng = &mut self.rng;
        let mut rays: Vec<Ray> = (0..40).map(|_| pair.ray(rng, t)).collect();
        rays.sort_by_key(|r| {
            let [(tests, ordered), (_, gathered)] = [0, 1].map(|way| pair.walked(r, way));
            Reverse((ordered != gathered, ordered.len(), tests))
        });
        let about = any_box(rng);
        rays.truncate(5);
        rays.extend([pair.ray(rng, t), ray(rng, &about)]);
        rays
    }

    /// Leaves, leaf limit, record nodes, deepest level, rays; node words, index words, the floats of the rays; for each ray its node
    /// tests, whether it is blocked where pane k has the box of node k, how many panes it meets, and these in rising order, each as
    /// often as it is met.
    fn add(&mut self, t: &Tree, limit: u32, pair: &Pair, rays: &[Ray]) {
        self.seen.note(t, pair);
        let nodes = pair.ways[0].record.len() / 80;
        let mut w = vec![t.indices.len() as u32, limit, nodes as u32, pair.ways[0].deepest, rays.len() as u32];
        w.extend(t.nodes.iter().chain(&t.indices));
        w.extend(rays.iter().flat_map(ray_words));
        let boxes: Vec<Option<Aabb>> = (0..t.indices.len()).map(|k| Some(t.aabb(k))).collect();
        for r in rays {
            let met = pair.met(r, &mut self.seen);
            let blocked = pair.blocked(&boxes, r, &mut self.seen);
            w.extend([met.tests, blocked as u32, met.panes.len() as u32]);
            w.extend(met.panes);
        }
        pair.report(&mut self.rng, rays, &mut self.seen);
        self.cases.add(w);
    }

    /// A tree at a leaf limit, with its rays.
    fn add_tree(&mut self, t: &Tree, limit: u32) {
        let pair = Pair::new(t, limit);
        let rays = self.rays(t, &pair);
        self.add(t, limit, &pair, &rays);
    }

    /// A tree of so many leaves, with no level over 31: one in six as it comes, else one of which some ray meets two panes or more.
    fn add_drawn(&mut self, k: usize, n: usize) {
        loop {
            let (t, limit) = (drawn(&mut self.rng, k, n), self.rng.below(4) as u32);
            let pair = Pair::new(&t, limit);
            if pair.deep() {
                continue;
            }
            let rays = self.rays(&t, &pair);
            if k % 6 == 0 || pair.walked(&rays[0], 0).1.len() > 1 {
                return self.add(&t, limit, &pair, &rays);
            }
        }
    }
}

/// No leaves, one and T at each limit; chains of one point to the deepest level; and trees of all kinds.
pub fn groups(seed: u64) -> Vec<Group> {
    let mut all = Stored { rng: Rng::new(seed), seen: Seen::default(), cases: Group::new(ORDERED_AND_NOT, 0) };
    for limit in 0..4 {
        let single = drawn(&mut all.rng, limit as usize, 1);
        [Tree::default(), single, sample_tree()].iter().for_each(|t| all.add_tree(t, limit));
    }
    [0, 3].iter().for_each(|&limit| all.add_tree(&chain(33, Boxes::Point), limit));
    let sizes = [2, 3, 4, 5, 6, 7, 8, 9, 10, 12, 14, 16, 20, 24, 30, 40, 60];
    (0..4 * sizes.len()).for_each(|k| all.add_drawn(k, sizes[k % sizes.len()]));
    println!("ordering: kind {ORDERED_AND_NOT}, {}", all.seen);
    vec![all.cases]
}
