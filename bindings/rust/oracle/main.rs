//! Compares the Rust package with the published Rust and with the rules, on random trees and rays, sound and damaged.
#[allow(dead_code)]
#[path = "../../../oracle/driver/accept.rs"]
mod accept;
#[allow(dead_code)]
#[path = "../../../oracle/driver/calls.rs"]
mod calls;
#[allow(dead_code)]
#[path = "../../../oracle/driver/checks.rs"]
mod checks;
#[allow(dead_code)]
#[path = "../../../oracle/driver/conversions.rs"]
mod conversions;
#[allow(dead_code)]
#[path = "../../../oracle/driver/convert.rs"]
mod convert;
#[allow(dead_code)]
#[path = "../../../oracle/driver/generate.rs"]
mod generate;
#[allow(dead_code)]
#[path = "../../../oracle/driver/join.rs"]
mod join;
#[allow(dead_code)]
#[path = "../../../oracle/driver/join_draws.rs"]
mod join_draws;
mod joins;
#[allow(dead_code)]
#[path = "../../../oracle/driver/leaves.rs"]
mod leaves;
#[allow(dead_code)]
#[path = "../../../oracle/driver/loss.rs"]
mod loss;
#[allow(dead_code)]
#[path = "../../../oracle/driver/odd.rs"]
mod odd;
#[allow(dead_code)]
#[path = "../../../oracle/driver/queries.rs"]
mod queries;
#[allow(dead_code)]
#[path = "../../../oracle/driver/query.rs"]
mod query;
#[allow(dead_code)]
#[path = "../../../oracle/driver/record.rs"]
mod record;
mod reports;
#[allow(dead_code)]
#[path = "../../../oracle/driver/rng.rs"]
mod rng;
#[allow(dead_code)]
#[path = "../../../oracle/driver/run.rs"]
mod run;
#[allow(dead_code)]
#[path = "../../../oracle/driver/scene.rs"]
mod scene;
#[allow(dead_code)]
#[path = "../../../oracle/driver/small.rs"]
mod small;
#[allow(dead_code)]
#[path = "../../../oracle/driver/store.rs"]
mod store;
#[allow(dead_code)]
#[path = "../../../oracle/driver/tree.rs"]
mod tree;
#[allow(dead_code)]
#[path = "../../../oracle/driver/walk.rs"]
mod walk;
#[allow(dead_code)]
#[path = "../../../oracle/driver/walker.rs"]
mod walker;
#[allow(dead_code)]
#[path = "../../../oracle/driver/zeros.rs"]
mod zeros;

use calls::{agreed_walk, told};
use checks::damage;
use conversions::some_tree;
use convert::{Converted, convert};
use funnelcress::{ObvhsNode, Pane, Record, Refusal, State, TreeError, Verdict, Walker as Walk, entry_distances};
use join::Seen;
use obvhs::ray::Ray;
use odd::negative_zeros;
use queries::{aimed, odd_ray, scene};
use record::check;
use rng::Rng;
use scene::{Answers, Asked, Scene};
use tree::{Tree, unsigned_zero};
use walk::Answer;
use walker::{Held, Step};
use zeros::{Share, entered};

#[derive(Default)]
struct Counts {
    trees: usize,
    deep: usize,
    damaged: usize,
    rays: Share,
    refused: usize,
    steps: usize,
    reports: usize,
    refused_reports: usize,
    joined: Seen,
    refused_joins: usize,
}

fn ours(r: &Ray) -> funnelcress::Ray {
    let (o, d) = (r.origin, r.direction);
    funnelcress::Ray { origin: [o.x, o.y, o.z], direction: [d.x, d.y, d.z], tmin: r.tmin, tmax: r.tmax }
}

/// An answer as the oracle has it: the number of a refusal, node tests, and the words found.
fn answer<T>(asked: Result<T, Refusal>, found: impl Fn(&T) -> (u32, Vec<u32>)) -> Answer {
    match asked {
        Err(Refusal::List { needed }) => Answer { refusal: 11, tests: 0, found: vec![needed] },
        Err(refusal) => Answer { refusal: refusal.number(), tests: 0, found: vec![] },
        Ok(x) => {
            let (tests, found) = found(&x);
            Answer { refusal: 0, tests, found }
        }
    }
}

fn panes(s: &Scene) -> Vec<Pane> {
    s.panes.chunks(6).map(|p| [0, 1, 2, 3, 4, 5].map(|k| f32::from_bits(p[k]))).collect()
}

fn asked(s: &Scene, r: &Ray) -> Answers {
    let record = Record::from_parts(s.record.clone(), s.list.clone());
    let panes = panes(s);
    let ray = ours(r);
    let mut list = vec![0; s.list.len()];
    let any = record.any_hit_into(&ray, &mut list);
    Answers {
        any: answer(any, |(count, tests)| (*tests, list[..*count].to_vec())),
        closest: answer(record.closest(&panes, &ray), |c| {
            (c.tests, c.hit.map_or(vec![], |h| vec![h.position, h.distance.to_bits()]))
        }),
        miss: answer(record.miss(&panes, &ray), |m| (m.tests, vec![m.missed as u32])),
    }
}

/// The published distances at which the ray enters the panes.
fn same_distances(s: &Scene, r: &Ray) {
    let got = entry_distances(&panes(s), &ours(r)).expect("whole boxes and a ray");
    let boxes = query::panes_of(&s.panes).into_iter().flatten();
    let expected = boxes.map(|b| unsigned_zero(b.intersect_ray(&entered(r))));
    assert!(got.into_iter().map(f32::to_bits).eq(expected.map(f32::to_bits)));
}

/// The words that hold a walker of the oracle's.
fn state(h: &Held) -> State {
    let r = &h.ray;
    let vectors = [r.origin, r.direction, r.inv_direction].into_iter().flat_map(|v| [v.x, v.y, v.z]);
    let floats = vectors.chain([r.tmin, r.tmax]).map(f32::to_bits);
    let words = [h.octant, h.tests, h.positions.base, h.positions.bits, h.current.base, h.current.bits, h.depth];
    let mut head = [0; 18];
    head.iter_mut().zip(floats.chain(words)).for_each(|(w, x)| *w = x as u64);
    let mut stack = [0; 32];
    stack.iter_mut().zip(&h.stack).for_each(|(w, g)| *w = (g.bits as u64) << 32 | g.base as u64);
    State { head, stack }
}

/// Steps to the end or a refusal, the k-th report answered with the k-th distance told.
fn steps(mut walker: Walk, told: &[f32]) -> Vec<Step> {
    let (mut out, mut reports) = (vec![], 0);
    loop {
        match walker.step() {
            Ok(funnelcress::Step::Tested(_)) => out.push(Step::Tested),
            Ok(funnelcress::Step::Position(p)) => {
                out.push(Step::Reported(p));
                walker.tell(told[reports % told.len()]);
                reports += 1;
            }
            Ok(funnelcress::Step::Done) => {
                out.push(Step::Done);
                return out;
            }
            Err(refusal) => {
                out.push(Step::Refused(refusal.number()));
                return out;
            }
        }
    }
}

/// The published tree's nodes, handed over.
fn handed_over(t: &Tree) -> Result<funnelcress::Tree, TreeError> {
    let bvh2 = t.bvh2();
    let node = |n: &obvhs::bvh2::node::Bvh2Node| ObvhsNode {
        min: [n.aabb.min.x, n.aabb.min.y, n.aabb.min.z],
        max: [n.aabb.max.x, n.aabb.max.y, n.aabb.max.z],
        prim_count: n.prim_count,
        first_index: n.first_index,
    };
    let nodes: Vec<ObvhsNode> = bvh2.nodes.iter().map(node).collect();
    funnelcress::Tree::from_obvhs(&nodes, bvh2.primitive_indices.clone())
}

/// The published conversion's record, or refusal 8.
fn converted(t: &Tree, c: &Converted, limit: u32, order: bool) -> Option<Record> {
    let tree = funnelcress::Tree::from_words(t.nodes.clone(), t.indices.clone());
    assert_eq!(Ok(&tree), handed_over(t).as_ref());
    let got = tree.convert_by(limit, order as u32);
    if c.deepest > 31 {
        assert_eq!(got, Err(Refusal::Level));
        return None;
    }
    let record = got.expect("an accepted tree is converted");
    assert!(record.bytes() == c.record && record.indices() == c.list);
    assert_eq!(record.check(), Ok(Verdict::Sound(c.deepest)));
    Some(record)
}

fn same_verdict(record: &[u8], n: usize) {
    let got = Record::from_parts(record.to_vec(), vec![0; n]).check();
    let expected = match check(record, n, usize::MAX) {
        record::Verdict::Sound(level) => Ok(Verdict::Sound(level)),
        record::Verdict::Unsound => Ok(Verdict::Unsound),
        record::Verdict::Refused(number) => Err(Refusal::from_number(number)),
    };
    assert_eq!(got, expected);
}

/// A walker with −0.0 in origin or direction, and the inverse of that direction or of the one with +0.0.
fn unread(rng: &mut Rng, r: &Ray) -> Held {
    let ray = rng.pick(&negative_zeros(r));
    let read = Held::fresh(&ray);
    let inv_direction = rng.pick(&[ray.inv_direction, read.ray.inv_direction]);
    Held { ray: Ray { inv_direction, ..ray }, ..read }
}

/// A walker with one thing forged.
fn forged(rng: &mut Rng, r: &Ray, m: usize) -> Held {
    let mut h = Held::fresh(r);
    match rng.below(10) {
        0 => h.octant = (h.octant + 1 + rng.below(7) as u32) % 8,
        1 => h.ray.inv_direction.y = rng.between(-9.0, 9.0),
        2 => h.depth = 33 + rng.below(9) as u32,
        3 => h.tests = m as u32 + 1 + rng.below(9) as u32,
        4 => h.ray.tmax = f32::NAN,
        5 => h.ray.tmin = f32::NAN,
        6..9 => h = unread(rng, r),
        _ => h.current.bits = rng.bits(),
    }
    h
}

/// One ray over a converted record, over a damaged one, and with a forged walker.
fn one_ray(rng: &mut Rng, t: &Tree, s: &Scene, hurt: &Scene, n: usize, counts: &mut Counts) {
    let r = aimed(rng, t, &s.record);
    let told = told(rng, &r);
    let answers = asked(s, &r);
    assert!(answers == s.agreed(&r));
    same_distances(s, &r);
    let sound = Record::from_parts(s.record.clone(), s.list.clone());
    let begun = sound.walk(&ours(&r)).unwrap();
    assert_eq!(begun.state(), &state(&Held::fresh(&r)));
    let walked = steps(begun, &told);
    assert_eq!(walked, agreed_walk(&s.record, n, &r, &told));
    counts.steps += walked.len();
    let odd = if rng.once_in(4) { odd_ray(rng, &r) } else { r };
    let q = Asked { ray: odd, n: hurt.list.len(), room: hurt.list.len() };
    let by_rules = hurt.by_rules(&q);
    counts.refused += by_rules.numbers().iter().filter(|k| **k != 0).count();
    assert!(asked(hurt, &odd) == by_rules);
    let hurt_record = Record::from_parts(hurt.record.clone(), hurt.list.clone());
    let h = forged(rng, &r, hurt.record.len() / 80);
    assert_eq!(steps(Walk::resume(&hurt_record, state(&h)), &told), walk::steps(&hurt.record, hurt.list.len(), &h, &told).0);
    counts.rays.note(&r, !answers.any.found.is_empty());
}

fn one_tree(rng: &mut Rng, reported: &mut Rng, k: usize, counts: &mut Counts) {
    let t = some_tree(rng, k);
    let n = t.indices.len();
    let (limit, order) = (rng.below(4) as u32, rng.once_in(2));
    let c = convert(&t, limit, order);
    counts.trees += 1;
    if converted(&t, &c, limit, order).is_none() {
        counts.deep += 1;
        return;
    }
    if t.indices.iter().any(|x| *x as usize >= n) {
        return;
    }
    let s = scene(rng, &t, &c);
    for _ in 0..4 {
        let (mut hurt, mut m) = (s.clone(), n);
        damage(rng, &mut hurt.record, &mut m);
        hurt.list.resize(m, 0);
        same_verdict(&hurt.record, m);
        counts.damaged += 1;
        one_ray(rng, &t, &s, &hurt, n, counts);
        let [reports, refused] = reports::same_reports(reported, &t, &s, &hurt);
        counts.reports += reports;
        counts.refused_reports += refused;
    }
}

fn main() {
    let trees: usize = std::env::args().nth(1).and_then(|x| x.parse().ok()).unwrap_or(20_000);
    let mut counts = Counts::default();
    let (mut rng, mut reported, mut paired) = (Rng::new(16), Rng::new(33), Rng::new(45));
    for k in 0..trees {
        one_tree(&mut rng, &mut reported, k, &mut counts);
        counts.refused_joins += joins::same_joins(&mut paired, k, &mut counts.joined);
    }
    let Counts { trees, deep, damaged, rays, refused, steps, reports, refused_reports, joined, refused_joins } = counts;
    println!("{trees} trees ({deep} refused 8), {damaged} damaged records, {rays} pass something: records, lists, verdicts,");
    println!("answers, distances and {steps} steps are the published Rust's, or the rules' where it has none ({refused} refusals of queries)");
    println!("{reports} reports have the positions of the published any-hit added up, or the rules' refusal ({refused_reports})");
    println!("joins are the driver's, or have the rules' refusal ({refused_joins}): {joined}");
    assert!(rays.one_in(10));
}
