//! Stored timed walks: walkers just begun, whose reports are the published traversal's in their hours; lists of calls of any walkers,
//! between which other lists are lent; and forged ones, by their quarter too.
use crate::accept::{MOST_LEAVES, MOST_NODES};
use crate::calls::{agreed_walk, distance, told};
use crate::convert::{bvh_of, convert};
use crate::odd::{forged, odd_walker};
use crate::queries::{odd_ray, queried_tree, scene};
use crate::query;
use crate::rng::Rng;
use crate::run::{Calls, to_end};
use crate::spans::{LAST, SIDE, odd_side, some_quarter, some_spans, span_at};
use crate::store::*;
use crate::timed;
use crate::timed_corners::{SAMPLE_SPANS, along_t, timed_t};
use crate::timed_queries::far_reaching;
use crate::timed_run::{Lent, TimedGround, TimedRun};
use crate::timed_scene::TimedScene;
use crate::tree::{Tree, sample_tree};
use crate::walk;
use crate::walker::{Group as Bits, Held, Step};
use obvhs::ray::Ray;

fn reports(steps: &[Step]) -> Vec<&Step> {
    steps.iter().filter(|s| matches!(s, Step::Reported(_))).collect()
}

/// A walk's steps to the end by the rules, over a side table that a conversion writes. The published traversal, from which positions
/// out of their hours are hidden, must report the same and come to the same tmax, by as many tests or more; and where all panes are
/// drawn all day the steps must be its own.
pub fn agreed_steps(s: &TimedScene, r: &Ray, quarter: u8, told: &[f32]) -> Vec<Step> {
    let plain = &s.scene;
    let (steps, reach) = walk::steps_of(timed::begun(s.lists(s.panes()), r, quarter), told);
    let shown = |p: usize| span_at(&s.spans, plain.list[p] as usize).holds(quarter);
    let published = query::steps_shown(&bvh_of(&plain.record, &plain.list), &Held::fresh(r), told, shown);
    assert_eq!((reports(&steps), reach), (reports(&published.0), published.1));
    assert!(steps.len() <= published.0.len() && steps.last() == Some(&Step::Done));
    if s.is_all_day() {
        assert_eq!(steps, agreed_walk(&plain.record, plain.list.len(), r, told));
    }
    steps
}

/// Walkers just begun, to done and two steps further: all day, and at quarters.
fn walks(rng: &mut Rng, records: usize, rays: usize) -> Group {
    let mut g = Group::new(TIMED_WALKS, 0);
    for k in 0..records {
        let Some((t, c)) = queried_tree(rng, k) else { continue };
        let plain = scene(rng, &t, &c);
        let spans = some_spans(rng, plain.panes.len() / 6);
        let s = if k % 3 == 0 { TimedScene::all_day(plain) } else { TimedScene::converted(plain, spans) };
        let ground = TimedGround::new(&[s.clone()]);
        let mut all = vec![];
        for _ in 0..rays {
            let r = far_reaching(rng, &t, &s.scene.record, 3);
            let (told, quarter) = (told(rng, &r), some_quarter(rng, &s.spans));
            let mut run = ground.begun(&r, quarter);
            let steps = to_end(&mut run, if told == [f32::INFINITY] { &[] } else { &told }, 2);
            assert_eq!(steps, agreed_steps(&s, &r, quarter, &told));
            all.push(run.words());
        }
        g.add(ground.case(&all));
    }
    g
}

/// Something else lent than at first: a list too short or too long, or too many index words, or another pane count.
fn lent_otherwise(rng: &mut Rng, l: Lent) -> Lent {
    match rng.below(9) {
        0 => Lent { record: rng.pick(&[0, l.record.saturating_sub(80), l.record.saturating_sub(1), l.record + 1]), ..l },
        1 => Lent { record: l.record + 80, ..l },
        2 => Lent { record: l.record + 80, side: l.side + SIDE, ..l },
        3 => Lent { side: rng.pick(&[0, l.side.saturating_sub(1), l.side + 1, l.side + SIDE]), ..l },
        4 => Lent { list: rng.pick(&[0, l.list.saturating_sub(1), l.list / 2, l.list + 1]), ..l },
        5 => Lent { panes: rng.pick(&[0, l.panes + 1, l.panes.saturating_sub(1), u32::MAX as usize]), ..l },
        6 => Lent { spans: rng.pick(&[0, l.spans.saturating_sub(1), l.spans + 1, l.spans + 2]), ..l },
        7 => Lent { panes: l.panes + 1, spans: l.spans + 2, ..l },
        _ => Lent { panes: l.panes / 2, spans: l.panes / 2 * 2, ..l },
    }
}

/// Calls in any order, on any of the lists and any part of them, and at last on all of the first to the end.
fn some_calls(rng: &mut Rng, mut run: TimedRun, calls: usize) -> Vec<u32> {
    let first = run.ground.lent;
    for _ in 0..calls {
        match rng.below(14) {
            0 => run.tell(distance(rng, run.tmin())),
            1 => run.lend(Lent { turn: run.lent.turn, ..lent_otherwise(rng, first) }),
            2 | 3 => run.turn(1 - run.lent.turn),
            4 => run.lend(Lent { turn: run.lent.turn, ..first }),
            _ => {
                run.step();
            }
        }
    }
    run.turn(0);
    to_end(&mut run, &[], 1);
    run.words()
}

/// Other lists for a record: other spans, mostly with the side table that they make, at times with an index word that names no pane.
fn other_turn(rng: &mut Rng, s: &TimedScene) -> TimedScene {
    let mut other = TimedScene::converted(s.scene.clone(), some_spans(rng, s.panes()));
    if rng.once_in(3) {
        other.side = odd_side(rng, &other.side);
    }
    if rng.once_in(3) && s.panes() > 0 {
        let k = rng.below(other.scene.list.len());
        other.scene.list[k] = rng.pick(&[s.panes() as u32, u32::MAX]);
    }
    other
}

/// Walkers just begun, made up with odd bits, and beside a refused ray or quarter.
fn drawn(rng: &mut Rng, g: &mut Group, k: usize) {
    let Some((t, c)) = queried_tree(rng, k) else { return };
    let plain = scene(rng, &t, &c);
    let spans = some_spans(rng, plain.panes.len() / 6);
    let s = TimedScene::converted(plain, spans);
    let ground = TimedGround::new(&[s.clone(), other_turn(rng, &s)]);
    let (m, n) = (s.scene.record.len() / 80, s.scene.list.len());
    let mut all = vec![];
    for i in 0..6 {
        let r = far_reaching(rng, &t, &s.scene.record, 3);
        let quarter = some_quarter(rng, &s.spans);
        let calls = 3 + rng.below(14);
        all.push(match i {
            5 => {
                let (odd, late) = (odd_ray(rng, &r), if rng.once_in(2) { quarter } else { LAST + 1 + rng.below(160) as u8 });
                some_calls(rng, ground.begun(&odd, late), 4)
            }
            1 | 3 => {
                let h = odd_walker(rng, &r, m, n);
                some_calls(rng, ground.held(&h, quarter), calls)
            }
            _ => some_calls(rng, ground.begun(&r, quarter), calls),
        });
    }
    g.add(ground.case(&all));
}

/// T, with lists between which a walk changes: the other's spans, or one of its index words names no pane.
fn turns_of_t(other: [u8; 4], list: [u32; 2]) -> TimedGround {
    let mut second = timed_t(other);
    second.scene.list = list.to_vec();
    TimedGround::new(&[timed_t(SAMPLE_SPANS), second])
}

/// Both positions in hand at quarter 61, and then other lists: what is due is said by the lists of the step that comes to it. Passed
/// over are one position or both, before a report, a refusal or the end; what is refused stays in hand.
fn between_steps(g: &mut Group) {
    let (one, nought) = (Step::Reported(1), Step::Reported(0));
    let cases: [([u8; 4], [u32; 2], &[Step], &[Step]); 6] = [
        ([61, 61, 0, 60], [0, 1], &[nought, Step::Done], &[Step::Done]),
        ([0, 60, 62, 95], [0, 1], &[Step::Done, Step::Done], &[Step::Done]),
        ([0, 95, 0, 60], [2, 1], &[Step::Refused(10)], &[one, nought, Step::Done]),
        ([0, 95, 0, 95], [0, 2], &[Step::Refused(10)], &[one, nought, Step::Done]),
        ([0, 95, 0, 95], [2, 1], &[one, Step::Refused(10)], &[nought, Step::Done]),
        ([0, 60, 61, 61], [1, 0], &[nought, Step::Done], &[Step::Done]),
    ];
    for (other, list, then, last) in cases {
        let ground = turns_of_t(other, list);
        let mut run = ground.begun(&along_t(), 61);
        assert_eq!(run.step(), Step::Tested);
        run.turn(1);
        then.iter().for_each(|s| assert_eq!(run.step(), *s));
        run.turn(0);
        last.iter().for_each(|s| assert_eq!(run.step(), *s));
        g.add(ground.case(&[run.words()]));
    }
}

/// A walk on T between whose steps each list is lent wrongly in each way, which is refused, and the walk goes on.
fn refused_between(g: &mut Group) {
    let ground = turns_of_t([10, 5, 0, 95], [0, 1]);
    let l = ground.lent;
    let wrong = [
        (Lent { record: 79, ..l }, 1),
        (Lent { record: 79, side: 0, panes: 3, ..l }, 1),
        (Lent { side: 15, ..l }, 14),
        (Lent { side: 32, ..l }, 14),
        (Lent { record: 160, ..l }, 14),
        (Lent { panes: 1, ..l }, 14),
        (Lent { panes: 3, ..l }, 14),
        (Lent { spans: 3, ..l }, 14),
        (Lent { spans: 6, ..l }, 14),
        (Lent { panes: u32::MAX as usize, ..l }, 14),
        (Lent { turn: 1, ..l }, 14),
    ];
    let mut all = vec![];
    for quarter in [40, 61, 70, 10] {
        let mut run = ground.begun(&along_t(), quarter);
        loop {
            for (lent, number) in wrong {
                run.lend(lent);
                assert_eq!(run.step(), Step::Refused(number));
            }
            run.lend(l);
            if run.step() == Step::Done {
                break;
            }
        }
        all.push(run.words());
    }
    g.add(ground.case(&all));
}

/// Walks on a record without nodes, after which T's record is lent, of walkers with positions in hand or none.
fn without_nodes() -> Vec<u32> {
    let ground = turns_of_t([0, 60, 0, 60], [0, 1]);
    let empty = Lent { record: 0, side: 0, ..ground.lent };
    let fresh = Held::fresh(&along_t());
    let mut all = vec![];
    for bits in [0, 1, 2, 3, 4, 5] {
        for quarter in [40, 61, 70, 10] {
            for turn in [0, 1] {
                let positions = Bits { base: 0, bits };
                let mut run = ground.held(&Held { positions, ..fresh.clone() }, quarter);
                run.lend(Lent { turn, ..empty });
                to_end(&mut run, &[], 1);
                run.turn(0);
                to_end(&mut run, &[], 1);
                all.push(run.words());
            }
        }
    }
    ground.case(&all)
}

fn calls(rng: &mut Rng) -> Group {
    let mut g = Group::new(TIMED_CALLS, 0);
    (0..40).for_each(|k| drawn(rng, &mut g, k));
    between_steps(&mut g);
    refused_between(&mut g);
    g.add(without_nodes());
    g
}

/// Quarters past the day.
const LATE: [u8; 5] = [LAST + 1, 97, 128, 254, 255];

/// Each kind of forged walker at a quarter, and walkers that are forged by their quarter alone; each alone, and with causes 1, 2 and
/// 14. Telling refuses nothing.
fn forged_ones(rng: &mut Rng) -> Group {
    let mut g = Group::new(TIMED_FORGED, 0);
    for k in 0..3 {
        let t = if k == 0 { Tree::default() } else { sample_tree() };
        let c = convert(&t, 3, k == 2);
        let s = TimedScene::converted(scene(rng, &t, &c), some_spans(rng, t.indices.len()));
        let mut longer = TimedScene { scene: s.scene.clone(), ..s.clone() };
        longer.scene.list.resize(MOST_LEAVES, 0);
        let mut ground = TimedGround::new(&[longer]);
        ground.lent.list = s.scene.list.len();
        let l = ground.lent;
        let r = far_reaching(rng, &t, &s.scene.record, 3);
        let m = s.scene.record.len() / 80;
        let mut walkers: Vec<(Held, u8)> = forged(rng, &r, m).into_iter().map(|h| (h, 48)).collect();
        walkers.extend(LATE.map(|late| (Held::fresh(&r), late)));
        walkers.extend(LATE.map(|late| (odd_walker(rng, &r, m, 2), late)));
        let mut all = vec![];
        for (h, quarter) in walkers {
            let mut run = ground.held(&h, quarter);
            assert_eq!(run.step(), Step::Refused(10));
            [distance(rng, r.tmin), 2.5, -7.5].into_iter().for_each(|d| run.tell(d));
            let wrong = rng.pick(&[Lent { side: l.side + 1, ..l }, Lent { spans: l.spans + 2, ..l }, Lent { panes: l.panes + 1, ..l }]);
            for (lent, number) in [(l, 10), (wrong, 14)] {
                run.lend(lent);
                assert_eq!(run.step(), Step::Refused(number));
            }
            run.lend(Lent { list: MOST_LEAVES + 1, ..wrong });
            assert_eq!(run.step(), Step::Refused(2));
            run.lend(Lent { record: l.record + 1 + rng.below(79), ..run.lent });
            assert_eq!(run.step(), Step::Refused(1));
            run.lend(l);
            assert_eq!(run.step(), Step::Refused(10));
            all.push(run.words());
        }
        g.add(ground.case(&all));
    }
    g.add(sizes());
    g
}

/// T's lists with zeros behind them, to more nodes and index words than there may be; the side table as it must be, or not.
fn sizes() -> Vec<u32> {
    let mut s = timed_t([0, 0, 0, 95]);
    let most = 80 * MOST_NODES;
    s.scene.record.resize(most, 0);
    s.side.resize(SIDE * MOST_NODES, 0);
    s.scene.list.resize(MOST_LEAVES, 0);
    let ground = TimedGround::new(&[s]);
    let l = ground.lent;
    let mut all = vec![];
    for record in [0, 79, 80, most - 1, most, most + 1, most + 80] {
        for list in [0, 1, 2, MOST_LEAVES, MOST_LEAVES + 1] {
            for more in [0, 16] {
                let mut run = ground.begun(&along_t(), 0);
                run.lend(Lent { record, list, side: SIDE * (record / 80) + more, ..l });
                run.step();
                run.turn(0);
                to_end(&mut run, &[], 1);
                all.push(run.words());
            }
        }
    }
    ground.case(&all)
}

pub fn groups(seed: u64) -> Vec<Group> {
    let mut rng = Rng::new(seed);
    let rng = &mut rng;
    vec![walks(rng, 90, 7), calls(rng), forged_ones(rng)]
}
