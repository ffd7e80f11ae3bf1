//! The samples that the Rust can say something of, and the record line of T.
use crate::accept::{Room, accepted_box, conversion_refusal};
use crate::calls::agreed_walk;
use crate::convert::{Converted, bvh_of, convert};
use crate::generate::{Boxes, chain};
use crate::join::{self, Seen};
use crate::joins;
use crate::loss::{Call, RayLoss, Report, Reported};
use crate::losses::{refused_samples, sample, sample_rays};
use crate::query;
use crate::rng::Rng;
use crate::scene::{Asked, Scene, endless, through_t};
use crate::show::{input_of, shown, showrecord};
use crate::timed_conversions::samples as timed_samples;
use crate::timed_corners::{SAMPLE_SPANS, along_t, timed_t};
use crate::timed_scene::TimedScene;
use crate::tree::{BOUND, Tree, bits, inner, leaf, sample_tree};
use crate::walk;
use crate::walker::{Held, Step};
use glam::{Vec3A, vec3a};
use obvhs::aabb::Aabb;
use obvhs::ray::Ray;

/// The e byte that the conversion writes for an extent.
fn exponent(extent: f32) -> u8 {
    let mut t = Tree { nodes: vec![], indices: vec![0] };
    t.push(&Aabb::new(Vec3A::ZERO, vec3a(extent, 0.0, 0.0)), leaf(0));
    convert(&t, 3, false).record[12]
}

fn next_up(x: f32) -> f32 {
    f32::from_bits(x.to_bits() + 1)
}

struct Tally {
    failed: u32,
}

impl Tally {
    fn holds(&mut self, name: &str, held: bool) {
        println!("{name}: {}", if held { "holds" } else { "FAILS" });
        self.failed += !held as u32;
    }
}

/// What T answers to the ray, by the published code and by the rules, each by one test: any-hit's list, and the closest hit,
/// without which miss has missed.
fn answers_ray(ray: Ray, listed: &[u32], hit: Option<(u32, f32)>) -> bool {
    let s = Scene::sample();
    let a = s.published(&ray);
    let found = hit.map_or(vec![], |(p, t)| vec![p, t.to_bits()]);
    let tests = [a.any.tests, a.closest.tests, a.miss.tests];
    let same = a == s.by_rules(&Asked { ray, n: 2, room: 2 });
    same && tests == [1; 3] && a.any.found == listed && a.closest.found == found && a.miss.found == [hit.is_none() as u32]
}

/// The same to the ray through T's boxes from x with this tmin.
fn answers(x: f32, tmin: f32, listed: &[u32], hit: Option<(u32, f32)>) -> bool {
    answers_ray(through_t(x, tmin), listed, hit)
}

/// Where tmax comes to on T with this tmin, by the published code and by the rules, if its two positions are told these.
fn reach(tmin: f32, told: [f32; 2]) -> f32 {
    let (s, ray) = (Scene::sample(), through_t(-1.0, tmin));
    agreed_walk(&s.record, 2, &ray, &told);
    f32::from_bits(walk::steps(&s.record, 2, &Held::fresh(&ray), &told).1)
}

/// The near limit by tmin.
fn near_limits(all: &mut Tally) {
    all.holds("tmin 1.5: any-hit 1 and 0, closest 1 at 3.0", answers(-1.0, 1.5, &[1, 0], Some((1, 3.0))));
    all.holds("tmin 2: any-hit 1 and 0, closest 1 at 3.0", answers(-1.0, 2.0, &[1, 0], Some((1, 3.0))));
    all.holds("tmin 2.5: any-hit 1 alone, closest 1 at 3.0", answers(-1.0, 2.5, &[1], Some((1, 3.0))));
    all.holds("tmin 3: any-hit 1 alone, closest 1 at 3.0", answers(-1.0, 3.0, &[1], Some((1, 3.0))));
    all.holds("tmin 3.5: any-hit 1, no hit, missed", answers(-1.0, 3.5, &[1], None));
    all.holds("tmin 4.5 and +inf: nothing", answers(-1.0, 4.5, &[], None) && answers(-1.0, f32::INFINITY, &[], None));
    all.holds("from inside A, tmin 0: 1 at 1.5", answers(0.5, 0.0, &[1, 0], Some((1, 1.5))));
    all.holds("from inside A, tmin -1: 0 at -0.5", answers(0.5, -1.0, &[1, 0], Some((0, -0.5))));
    all.holds("from 0.00005 before A, tmin 0: 0 at 0.00005", answers(-0.00005, 0.0, &[1, 0], Some((0, 0.00005))));
    let nan = Asked { ray: through_t(-1.0, f32::NAN), n: 2, room: 2 };
    all.holds("tmin NaN: refused 9 (by the rules)", Scene::sample().by_rules(&nan).numbers() == [9; 3]);
    let told = [[1.0, 1.0], [3.0, 1.0], [3.0, 2.0]].map(|told| reach(2.0, told));
    all.holds("tmin 2: told 1 does nothing, told 3 then 2 lowers to 3, then to 2", told == [f32::INFINITY, 3.0, 2.0]);
}

/// -0.0 read as +0.0.
fn negative_zeros(all: &mut Tally) {
    let same = |origin: [f32; 3], direction: [f32; 3]| answers_ray(endless(origin, direction), &[1, 0], Some((0, 1.0)));
    let at = [-1.0, 0.5, 0.5];
    all.holds("S7 the same with -0.0 in y: any-hit 1 and 0, closest 0 at 1.0", same(at, [1.0, -0.0, 0.0]));
    all.holds("S7 with -0.0 in z, in both", same(at, [1.0, 0.0, -0.0]) && same(at, [1.0, -0.0, -0.0]));
    all.holds("S7 with -0.0 in the origin's y", same([-1.0, -0.0, 0.5], [1.0, 0.0, 0.0]));
    let ray = endless(at, [1.0, -0.0, 0.0]);
    let by_hand = Held { ray, ..Held::fresh(&ray) };
    let agrees = bits(ray.inv_direction) == [1.0f32, -8388608.0, 8388608.0].map(f32::to_bits) && by_hand.octant == 7;
    let steps = walk::steps(&Scene::sample().record, 2, &by_hand, &[f32::INFINITY]).0;
    all.holds("S7 a walker with -0.0 in y, inverse -2^23, octant 7: refused 10 (by the rules)", agrees && steps == [Step::Refused(10)]);
}

/// Losses of T's panes, by the published positions and by the rules.
fn losses(all: &mut Tally) {
    let [ray, short] = sample_rays();
    let (one, two) = (sample(&[ray]), sample(&[ray, short]));
    let single = |c: &Call| [c.agreed().rays[0], c.loss(0).sum, c.loss(0).tests as u64];
    all.holds("losses 3000 and 500: 3500 by one test", single(&one) == [3500, 3500, 1]);
    all.holds("the same with indices 1 and 1: 1000", single(&Call { list: vec![1, 1], ..one.clone() }) == [1000, 1000, 1]);
    let totals = Report { refusal: 0, tests: 2, rays: vec![3500, 3000], panes: vec![6000, 500] };
    all.holds("a report of that ray and of one to 2.5: rays 3500 and 3000, panes 6000 and 500", two.agreed() == totals);
    let refused = refused_samples().map(|(c, refusal)| {
        let single = RayLoss { refusal, ..Default::default() };
        c.report() == Report { refusal, ..Default::default() } && c.singles() == [single]
    });
    all.holds("three losses for two panes: 12, with tmax NaN too (by the rules)", refused[0] && refused[1]);
    all.holds("the same with a record of 79 bytes: 1 (by the rules)", refused[2]);
}

/// Trees joined by the rules; the published code takes what comes out.
fn joined(all: &mut Tally) {
    let ends = |c: &join::Call| c.agreed(&mut Rng::new(4), 4, &mut Seen::default()).tree;
    let links = |t: &Tree| (0..t.count()).map(|v| t.link(v)).collect::<Vec<_>>();
    let (t, calls) = (sample_tree(), joins::samples());
    let two = ends(&calls[0].0);
    let expected = [inner(1), inner(3), inner(5), leaf(0), leaf(1), leaf(2), leaf(3)];
    let root = [0.0, 0.0, 0.0, 3.0, 1.0, 1.0].map(f32::to_bits);
    all.holds("T with T: seven nodes, indices 0 to 3", links(&two) == expected && two.nodes[..6] == root && two.indices == [0, 1, 2, 3]);
    all.holds("a leaf with a leaf: three nodes", links(&ends(&calls[1].0)) == [inner(1), leaf(0), leaf(1)]);
    let (second, first) = (ends(&calls[2].0), ends(&calls[3].0));
    all.holds("none with T, 5 panes: T with indices 5 and 6", second.nodes == t.nodes && second.indices == [5, 6]);
    all.holds("T with none: T; none with none: none", first == t && ends(&calls[4].0) == Tree::default());
    let sums = [5, 6].map(|i| calls[i].0.refusal());
    all.holds("4,294,967,295 panes: index 0 joined, index 1 refused 13", sums == [0, 13] && ends(&calls[5].0).indices[2] == u32::MAX);
    let chains = joins::chains().iter().all(|(c, number)| c.refusal() == *number);
    all.holds("chains of 127 leaves with one and of 128 with none joined, of 128 with one refused 7", chains);
}

/// What T answers at a quarter to the ray along x, by the rules and as the published code in its hours: any-hit's list, by one test.
fn lists_at(quarter: u8, listed: &[u32]) -> bool {
    let a = timed_t(SAMPLE_SPANS).agreed(&along_t(), quarter);
    let found = [a.closest.found.first().copied(), listed.iter().min().copied()];
    a.all().iter().all(|a| a.tests == 1) && a.any.found == listed && found[0] == found[1]
}

/// T's panes at their quarters.
fn at_quarters(all: &mut Tally) {
    let s = timed_t(SAMPLE_SPANS);
    all.holds("spans 32-63 and 60-95: T's side table is 203f3c5f and zeros", s.side == [&[0x20, 0x3f, 0x3c, 0x5f][..], &[0; 12]].concat());
    all.holds("along x at 40: 0; at 61: 1 and 0; at 70: 1", lists_at(40, &[0]) && lists_at(61, &[1, 0]) && lists_at(70, &[1]));
    all.holds("at 10: nothing", lists_at(10, &[]));
    let numbers = |s: &TimedScene, ray: &Ray, quarter: u8| s.by_rules(&s.asked(ray, quarter)).numbers();
    let turned = TimedScene { spans: vec![63, 32, 60, 95], ..s.clone() };
    let endless = Ray { tmax: f32::NAN, ..along_t() };
    all.holds("span 63-32: refused 14 (by the rules)", numbers(&turned, &along_t(), 40) == [14; 3]);
    all.holds("quarter 96: refused 14, with tmax NaN too; tmax NaN alone: 9", {
        let late = [&along_t(), &endless].map(|r| numbers(&s, r, 96));
        late == [[14; 3]; 2] && numbers(&s, &endless, 40) == [9; 3]
    });
    all.holds("conversion with a span byte short: 14; with limit 4: 3; with cause 7: 14; with cause 6: 6", timed_samples());
}

const T_LINES: &str = "0 0000000000000000000000007978780001000000000000002021000000000000008000000000000040c00000000000000000000000000000808000000000000000000000000000008080000000000000\nindices 0 1\n";

/// What conversion writes for T, and e bytes.
fn conversions(all: &mut Tally, t: &Tree, c: &Converted) {
    all.holds("S1 the e bytes of T are 121, 120, 120", c.record[12..15] == [121, 120, 120]);
    all.holds("S2 extent 255 and the next: 127, 128", (exponent(255.0), exponent(next_up(255.0))) == (127, 128));
    all.holds(
        "S3 extent 261120 and the next: 137, 138",
        (exponent(261120.0), exponent(next_up(261120.0))) == (137, 138),
    );
    all.holds("S4 extent 0: 53", exponent(0.0) == 53);
    let o = convert(t, 3, true);
    let metas: Vec<usize> = (0..8).filter(|&s| o.record[24 + s] != 0).collect();
    all.holds(
        "S5 with ordering A takes slot 0 and B takes slot 4",
        metas == [0, 4] && o.list == [0, 1] && (o.record[32], o.record[40]) == (0, 0x40) && (o.record[36], o.record[44]) == (0x80, 0xc0),
    );
}

pub fn run() -> bool {
    let mut all = Tally { failed: 0 };
    let t = sample_tree();
    let c = convert(&t, 3, false);
    print!("{}", shown(&c));
    conversions(&mut all, &t, &c);
    all.holds(
        "S6 any-hit lists 1 and 0 after one test, closest answers position 0 at 1.0",
        answers(-1.0, 0.0, &[1, 0], Some((0, 1.0))),
    );
    negative_zeros(&mut all);
    let empty = convert(&Tree::default(), 3, false);
    let none = query::any_hit(&bvh_of(&empty.record, &empty.list), through_t(-1.0, 0.0));
    all.holds("S8 n = 0: no nodes, nothing, no test", empty.record.is_empty() && none == Default::default());
    let room = Room::needed(2);
    all.holds(
        "S9 a leaf limit of 3 is accepted, one of 4 refused 3 (by the rules; the Rust refuses nothing)",
        conversion_refusal(&t, 3, room) == 0 && conversion_refusal(&t, 4, room) == 3,
    );
    let far = |x: f32| accepted_box(&Aabb::new(vec3a(-x, 0.0, 0.0), vec3a(x, 0.0, 0.0)));
    all.holds("S10 coordinate 2^40 accepted, the next refused (by the rules)", far(BOUND) && !far(next_up(BOUND)));
    let deepest = |n| (0..4).map(|limit| convert(&chain(n, Boxes::Point), limit, false).deepest).collect::<Vec<_>>();
    all.holds(
        "S11 chains of 33 and 34 zero-size leaves reach levels 31 and 32",
        deepest(33) == [31; 4] && deepest(34) == [32; 4],
    );
    all.holds("S12 T's record line", shown(&c) == T_LINES && showrecord(&input_of(&t, 3, 0)) == T_LINES);
    near_limits(&mut all);
    losses(&mut all);
    at_quarters(&mut all);
    joined(&mut all);
    all.failed == 0
}
