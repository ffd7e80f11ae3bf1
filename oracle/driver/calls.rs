//! Stored walks: walkers just begun on converted records, whose steps are the published traversal's; lists of calls of any
//! walkers; forged ones; and records and numbers of positions at the largest sizes.
use crate::accept::{MOST_LEAVES, MOST_NODES};
use crate::checks::damage;
use crate::convert::{bvh_of, convert};
use crate::generate::{beside, corner, ray};
use crate::odd::{self, forged, ladder, negative_zeros, odd_walker};
use crate::queries::{aimed, odd_ray, queried_tree, target_box};
use crate::query;
use crate::rng::Rng;
use crate::run::{Calls, Ground, Run, held_ray_words};
use crate::scene::through_t;
use crate::store::*;
use crate::tree::{Tree, sample_tree};
use crate::walk;
use crate::walker::{Held, Step};
use crate::zeros::{Share, entered};
use obvhs::ray::Ray;

/// A distance to tell a walker with this tmin: it lowers tmax, or does nothing.
pub fn distance(rng: &mut Rng, tmin: f32) -> f32 {
    match rng.below(8) {
        0 => f32::NAN,
        1 => corner(rng),
        2 => rng.between(0.0, 10.0),
        4 | 5 => beside(rng, tmin),
        3 => rng.pick(&[0.0, -0.0, f32::INFINITY, f32::NEG_INFINITY]),
        _ => f32::MAX,
    }
}

/// Distances to tell at reports of a walk along the ray.
pub fn told(rng: &mut Rng, r: &Ray) -> Vec<f32> {
    let k = 1 + rng.below(5);
    if rng.once_in(2) { vec![f32::INFINITY] } else { (0..k).map(|_| distance(rng, r.tmin)).collect() }
}

/// What the published traversal does from a walker on, which must be what the rules say, with the same tmax at the end.
pub fn agreed_steps(record: &[u8], n: usize, from: &Held, told: &[f32]) -> Vec<Step> {
    let published = query::steps(&bvh_of(record, &vec![0; n]), from, told);
    assert_eq!(published, walk::steps(record, n, from, told));
    published.0
}

/// The same from a walker just begun, which must hold the ray that the published code is handed.
pub fn agreed_walk(record: &[u8], n: usize, r: &Ray, told: &[f32]) -> Vec<Step> {
    let from = Held::fresh(r);
    assert_eq!(held_ray_words(&from.ray), held_ray_words(&entered(r)));
    agreed_steps(record, n, &from, told)
}

/// Walkers just begun, to done and two steps further.
fn walks(rng: &mut Rng, records: usize, rays: usize) -> Group {
    let mut g = Group::new(WALKS, 0);
    let mut share = Share::default();
    let mut add = |rng: &mut Rng, t: &Tree, record: &[u8]| {
        let ground = Ground::new(record, t.indices.len());
        let mut all = vec![];
        for _ in 0..rays {
            let r = aimed(rng, t, record);
            let told = told(rng, &r);
            let mut run = ground.begun(&r);
            let steps = run.to_end(if told == [f32::INFINITY] { &[] } else { &told }, 2);
            assert_eq!(steps, agreed_walk(record, ground.n, &r, &told));
            share.note(&r, steps.iter().any(|s| matches!(s, Step::Reported(_))));
            all.push(run.words());
        }
        g.add(ground.case(&all));
    };
    for t in [Tree::default(), sample_tree()] {
        add(rng, &t, &convert(&t, 3, false).record);
    }
    for k in 0..records {
        if let Some((t, c)) = queried_tree(rng, k) {
            add(rng, &t, &c.record);
        }
    }
    println!("steps: kind {WALKS}, {share} report a position");
    g
}

/// Calls in any order, on any part of the record and for any positions, and at last on all of it to the end.
fn some_calls(rng: &mut Rng, mut run: Run, calls: usize) -> Vec<u32> {
    let (bytes, n) = (run.ground.bytes, run.ground.n);
    for _ in 0..calls {
        match rng.below(14) {
            0 => run.tell(distance(rng, run.tmin())),
            1 => run.positions(rng.pick(&[n, n.saturating_sub(1), n / 2, 0, n + 1, MOST_LEAVES, MOST_LEAVES + 1, u32::MAX as usize])),
            2 => run.lend(rng.pick(&[bytes, bytes, 0, bytes.saturating_sub(80), bytes.saturating_sub(1), bytes + 1, bytes + 80])),
            3 | 4 => run.restore(),
            _ => {
                run.step();
            }
        }
    }
    run.restore();
    run.to_end(&[], 1);
    run.words()
}

/// Walkers just begun, made up with odd bits, and beside a refused ray.
fn drawn(rng: &mut Rng, g: &mut Group, k: usize) {
    let Some((t, c)) = queried_tree(rng, k) else { return };
    let (mut record, mut n) = (c.record, t.indices.len());
    if k % 3 == 0 {
        damage(rng, &mut record, &mut n);
    }
    let ground = Ground::new(&record, n);
    let mut all = vec![];
    for i in 0..6 {
        let r = aimed(rng, &t, &record);
        let calls = 3 + rng.below(12);
        if i == 5 {
            let odd = odd_ray(rng, &r);
            all.push(some_calls(rng, ground.begun(&odd), 4));
        } else if i % 2 == 0 {
            all.push(some_calls(rng, ground.begun(&r), calls));
        } else {
            let h = odd_walker(rng, &r, record.len() / 80, n);
            all.push(some_calls(rng, ground.held(&h), calls));
        }
    }
    g.add(ground.case(&all));
}

/// Odd walkers that nothing refuses: the published traversal goes on from them in the same way.
fn run_on(rng: &mut Rng, g: &mut Group, k: usize) {
    let Some((t, c)) = queried_tree(rng, k) else { return };
    let n = t.indices.len() + 40;
    let ground = Ground::new(&c.record, n);
    let mut all = vec![];
    while all.len() < 6 {
        let r = aimed(rng, &t, &c.record);
        let told = told(rng, &r);
        let h = odd_walker(rng, &r, c.record.len() / 80, n);
        if walk::steps(&c.record, n, &h, &told).0.contains(&Step::Refused(10)) {
            continue;
        }
        let mut run = ground.held(&h);
        assert_eq!(run.to_end(&told, 1), agreed_steps(&c.record, n, &h, &told));
        all.push(run.words());
    }
    g.add(ground.case(&all));
}

/// Walkers just begun on T with -0.0, and those made up with +0.0 in its place: they go the same way.
fn read_zeros(rng: &mut Rng) -> Vec<u32> {
    let t = sample_tree();
    let record = convert(&t, 3, false).record;
    let ground = Ground::new(&record, 2);
    let rays = [through_t(-1.0, 0.0), through_t(0.5, -0.0), aimed(rng, &t, &record)];
    let mut all = vec![];
    for r in rays.iter().flat_map(negative_zeros) {
        let (mut begun, mut made_up) = (ground.begun(&r), ground.held(&Held::fresh(&r)));
        let steps = begun.to_end(&[], 1);
        assert_eq!(steps, made_up.to_end(&[], 1));
        assert_eq!(steps, agreed_walk(&record, 2, &r, &[f32::INFINITY]));
        all.extend([begun.words(), made_up.words()]);
    }
    ground.case(&all)
}

fn calls(rng: &mut Rng) -> Group {
    let mut g = Group::new(CALLS, 0);
    (0..40).for_each(|k| drawn(rng, &mut g, k));
    (0..40).for_each(|k| run_on(rng, &mut g, k));
    g.add(read_zeros(rng));
    // a group more at each level; more tests than nodes
    for m in [3, 10, 32, 33, 34, 35, 36, 40] {
        let ground = Ground::new(&ladder(m), 1);
        let mut run = ground.begun(&odd::diagonal());
        let steps = run.to_end(&[], 1);
        assert_eq!(steps.last(), Some(&Step::Refused(10)));
        let tests = steps.iter().filter(|&&s| s == Step::Tested).count();
        assert_eq!(tests, if m < 35 { m } else { 33 });
        run.lend(run.ground.bytes + 80);
        run.to_end(&[], 1);
        g.add(ground.case(&[run.words()]));
    }
    odd::without_nodes(rng).into_iter().for_each(|case| g.add(case));
    g
}

/// Each kind of forged walker, alone and with causes 1 and 2; telling refuses nothing.
fn forged_ones(rng: &mut Rng) -> Group {
    let mut g = Group::new(FORGED, 0);
    for k in 0..4 {
        let t = if k == 0 { Tree::default() } else { sample_tree() };
        let c = convert(&t, 3, k == 2);
        let ground = Ground::new(&c.record, t.indices.len());
        let about = target_box(rng, &t);
        let r = ray(rng, &about);
        let mut all = vec![];
        for h in forged(rng, &r, c.record.len() / 80) {
            let mut run = ground.held(&h);
            assert_eq!(run.step(), Step::Refused(10));
            // the last of these is below most tmins, and counts where tmin is a NaN
            for d in [distance(rng, r.tmin), 2.5, r.tmin, r.tmin.next_down(), -7.5] {
                run.tell(d);
            }
            assert_eq!(run.step(), Step::Refused(10));
            run.positions(MOST_LEAVES + 1);
            assert_eq!(run.step(), Step::Refused(2));
            run.lend(ground.bytes + 1 + rng.below(79));
            assert_eq!(run.step(), Step::Refused(1));
            run.positions(ground.n);
            assert_eq!(run.step(), Step::Refused(1));
            // with a node more, of zeros, a walker that counts one test more than there are nodes is not forged
            run.lend(ground.bytes + 80);
            run.to_end(&[], 1);
            all.push(run.words());
        }
        g.add(ground.case(&all));
    }
    g
}

/// T's record with zeros behind it, to more nodes than there may be.
fn sizes(rng: &mut Rng) -> Group {
    let mut g = Group::new(STEP_SIZES, 0);
    let most = 80 * MOST_NODES;
    let mut record = convert(&sample_tree(), 3, false).record;
    record.resize(most + 159, 0);
    let ground = Ground { record, bytes: most, n: MOST_LEAVES };
    let r = through_t(-1.0, 0.0);
    let mut all = vec![];
    for bytes in [0, 79, 80, most - 1, most, most + 1, most + 80, most + 159] {
        for n in [0, 1, 2, MOST_LEAVES - 1, MOST_LEAVES, MOST_LEAVES + 1, u32::MAX as usize] {
            let mut run = ground.begun(&r);
            run.positions(n);
            run.lend(bytes);
            run.step();
            run.restore();
            run.to_end(&[], 1);
            all.push(run.words());
        }
    }
    for h in odd::far(rng, &r) {
        let mut run = ground.held(&h);
        run.to_end(&[], 1);
        run.positions(MOST_LEAVES - 1);
        run.to_end(&[], 1);
        all.push(run.words());
    }
    g.add(ground.case(&all));
    g
}

pub fn groups(seed: u64) -> Vec<Group> {
    let mut rng = Rng::new(seed);
    let rng = &mut rng;
    vec![walks(rng, 80, 16), calls(rng), forged_ones(rng), sizes(rng)]
}
