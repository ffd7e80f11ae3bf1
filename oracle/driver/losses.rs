//! Stored losses: reports over records and rays, with the single call's answer for each ray. On converted records the positions are
//! the published any-hit's, and all sums must be those of the rules; damaged calls are answered by the rules.
use crate::causes::small_tree;
use crate::checks::damage;
use crate::long::{along, row};
use crate::loss::{Call, MOST_LOSS, Reported};
use crate::loss_sizes;
use crate::odd::{diagonal, ladder};
use crate::queries::{aimed, odd_ray, queried_tree, refused_ray};
use crate::rng::Rng;
use crate::scene::{Scene, endless, ray_words, through_t};
use crate::store::*;
use crate::tree::Tree;
use crate::zeros::Share;
use obvhs::ray::Ray;
use std::collections::BTreeSet;

/// Causes in their order with the ways to meet them; 2 is in the other kind.
const CAUSES: [(u32, usize); 5] = [(1, 2), (4, 2), (12, 4), (9, 2), (10, 4)];

/// T with losses 3000 and 500, and these rays.
pub fn sample(rays: &[Ray]) -> Call {
    let s = Scene::sample();
    Call { record: s.record, list: s.list, panes: 2, losses: vec![3000, 500], ..Default::default() }.with_rays(rays)
}

/// The ray of the samples, which meets both positions of T, and the same with its end before position 1.
pub fn sample_rays() -> [Ray; 2] {
    let r = through_t(-1.0, 0.0);
    [r, Ray { tmax: 2.5, ..r }]
}

/// T with three losses for its two panes; with a NaN tmax as well; and with a record of 79 bytes as well. Each with its number.
pub fn refused_samples() -> [(Call, u32); 3] {
    let [ray, _] = sample_rays();
    let three = Call { losses: vec![3000, 500, 7], ..sample(&[ray]) };
    let unending = Call { losses: three.losses.clone(), ..sample(&[Ray { tmax: f32::NAN, ..ray }]) };
    let cut = Call { record: three.record[..79].to_vec(), ..unending.clone() };
    [(three, 12), (unending, 12), (cut, 1)]
}

/// A ray that passes T by.
pub fn past_t() -> Ray {
    endless([-1.0, 9.0, 9.0], [1.0, 0.0, 0.0])
}

/// Longer slices than the totals need, or just enough.
pub fn lend_more(rng: &mut Rng, c: &mut Call) {
    let mut more = || rng.pick(&[0, 0, 1, 3, 8]);
    c.ray_room += more();
    c.pane_room += more();
}

/// A call over a converted tree with these rays, and slices that are just long enough or longer.
pub fn drawn(rng: &mut Rng, k: usize, rays: impl Fn(&mut Rng, &Tree, &[u8]) -> Vec<Ray>) -> Option<Call> {
    let (t, c) = queried_tree(rng, k)?;
    let rays = rays(rng, &t, &c.record);
    let mut call = Call::new(rng, &c.record, &c.list, &rays);
    lend_more(rng, &mut call);
    Some(call)
}

/// A few rays for a call, or none; or, of the eighth, some dozen. Notes which of them meet something.
fn noted(rng: &mut Rng, k: usize, share: &mut Share) -> Option<Call> {
    let call = drawn(rng, k, |rng, t, record| {
        let count = if k == 7 { 60 } else { rng.pick(&[0, 1, 2, 4, 6, 8]) };
        (0..count).map(|_| aimed(rng, t, record)).collect()
    })?;
    call.agreed();
    (0..call.count()).for_each(|i| share.note(&call.ray(i), !call.any_hit(i).found.is_empty()));
    Some(call)
}

/// T's two samples of one ray and of two; both index words the same; rays with tmin and with -0.0.
fn of_t(g: &mut Group) {
    let [ray, short] = sample_rays();
    let zeros = endless([-1.0, 0.5, 0.5], [1.0, -0.0, -0.0]);
    let later = through_t(-1.0, 2.5);
    for list in [[0, 1], [1, 0], [1, 1], [0, 0]] {
        for rays in [vec![ray], vec![ray, short], vec![zeros, ray, later, past_t(), short, zeros]] {
            let call = Call { list: list.to_vec(), ..sample(&rays) };
            call.agreed();
            g.add(call.case());
        }
    }
}

/// No nodes or T's, with each of these index words, counts of panes and rays; those that nothing refuses are compared with the published
/// code.
pub fn few_of_each<C: Reported>(g: &mut Group, lists: &[&[u32]], panes: &[usize], rays: &[&[Ray]], of: impl Fn(Call) -> C) {
    for record in [vec![], sample(&[]).record] {
        for (list, panes) in lists.iter().flat_map(|&list| panes.iter().map(move |&panes| (list, panes))) {
            for rays in rays {
                let (record, losses) = (record.clone(), vec![700; panes]);
                let call = of(Call { record, list: list.to_vec(), panes, losses, ..Default::default() }.with_rays(rays));
                if call.report().refusal == 0 {
                    call.agreed();
                }
                g.add(call.case());
            }
        }
    }
}

/// No rays, no panes, no nodes, and all of these together; with panes or without, with index words or without.
fn none_of_something(g: &mut Group) {
    let [ray, short] = sample_rays();
    few_of_each(g, &[&[], &[0, 1]], &[0, 2, 3], &[&[], &[past_t()], &[past_t(), short, ray]], |plain| plain);
}

/// Losses at and past the most, for the first pane and for the last.
fn loss_limits(g: &mut Group) {
    let losses = [0, 1, MOST_LOSS - 1, MOST_LOSS, MOST_LOSS + 1, u32::MAX];
    for first in losses {
        for last in losses {
            let call = Call { losses: vec![first, last], ..sample(&sample_rays()) };
            match first.max(last) > MOST_LOSS {
                true => assert_eq!(call.report().refusal, 12),
                false => assert_eq!(call.agreed().rays, [first as u64 + last as u64, first as u64]),
            }
            g.add(call.case());
        }
    }
}

/// A row of boxes of which each takes the most: what a ray loses there, and what one pane takes, is over 2^32. A second pane has a
/// third of the positions, a third pane none.
fn over_32_bits(rng: &mut Rng) -> Vec<u32> {
    let s = row(4296, 5, 3, true);
    let rays = [along(rng, false), past_t(), along(rng, true)];
    let list = s.list.iter().map(|x| (x % 3 == 1) as u32).collect();
    let losses = vec![MOST_LOSS; 3];
    let call = Call { record: s.record, list, panes: 3, losses, ..Default::default() }.with_rays(&rays);
    let r = call.agreed();
    assert!(r.rays == [4_296_000_000, 0, 4_296_000_000] && r.panes[0] >> 32 > 0);
    call.case()
}

/// A record each of whose nodes counts its positions from 0 on, so that a ray meets one several times.
fn met_again(rng: &mut Rng) -> Vec<u32> {
    loop {
        let mut call = untimed(rng).0;
        (0..call.record.len() / 80).for_each(|i| call.record[80 * i + 20..80 * i + 24].fill(0));
        let r = call.agreed();
        let met = call.any_hit(2).found;
        if met.iter().collect::<BTreeSet<_>>().len() < met.len() && r.rays[2] > 0 {
            return call.case();
        }
    }
}

/// A call of three rays that nothing refuses, and the positions that the last ray meets: more than two, by more than one test. The
/// first ray meets something too.
pub fn meeting<C: Reported>(
    rng: &mut Rng,
    ray: impl Fn(&mut Rng, &Tree, &[u8]) -> Ray,
    of: impl Fn(&mut Rng, Call) -> C,
) -> (C, Vec<u32>) {
    loop {
        let (t, c) = small_tree(rng);
        let rays: Vec<Ray> = (0..3).map(|_| ray(rng, &t, &c.record)).collect();
        let plain = Call::new(rng, &c.record, &c.list, &rays);
        let call = of(rng, plain);
        call.agreed();
        let (first, last) = (call.any_hit(0), call.any_hit(2));
        if last.found.len() > 2 && last.tests > 1 && !first.found.is_empty() {
            return (call, last.found);
        }
    }
}

fn untimed(rng: &mut Rng) -> (Call, Vec<u32>) {
    meeting(rng, aimed, |_, plain| plain)
}

/// Makes a call meet a cause in one of its ways.
pub fn spoil(rng: &mut Rng, c: &mut Call, met: &[u32], cause: u32, way: usize) {
    let p = rng.pick(met) as usize;
    match (cause, way) {
        (1, 0) if rng.once_in(2) => c.record.truncate(c.record.len() - 1 - rng.below(79)),
        (1, 0) => c.record.extend(vec![0; 1 + rng.below(79)]),
        (1, _) => c.rays.extend(vec![0; 1 + rng.below(7)]),
        (4, 0) => c.ray_room = rng.pick(&[0, c.count() - 1]),
        (4, _) => c.pane_room = rng.pick(&[0, c.panes - 1]),
        (12, 0) => c.losses.truncate(rng.pick(&[0, c.panes - 1])),
        (12, 1) => c.losses.extend(vec![5; 1 + rng.below(3)]),
        (12, 2) => c.losses[0] = rng.pick(&[MOST_LOSS + 1, u32::MAX]),
        (12, _) => *c.losses.last_mut().unwrap() = MOST_LOSS + 1,
        (9, _) => {
            let k = if way == 0 { 0 } else { c.count() - 1 };
            let odd = refused_ray(rng, &c.ray(k));
            c.rays[8 * k..8 * k + 8].copy_from_slice(&ray_words(&odd));
        }
        (_, 0) => c.record[12 + rng.below(3)] = rng.pick(&[0, 52, 162, 255]),
        (_, 1) => (0..c.record.len() / 80).skip(1).for_each(|i| c.record[80 * i + 14] = 0),
        (_, 2) => c.list[p] = rng.pick(&[c.panes as u32, u32::MAX]),
        _ => c.list.truncate(p),
    }
}

/// Walks that meet a position, and go on until they make more tests than there are nodes or more groups wait than there is room for.
fn long_walks(g: &mut Group) {
    for m in [3, 10, 36] {
        let call = Call { record: ladder(m), list: vec![0], panes: 1, losses: vec![9], ..Default::default() };
        let call = call.with_rays(&[past_t(), diagonal()]);
        assert_eq!(call.singles().iter().map(|s| s.refusal).collect::<Vec<_>>(), [0, 10]);
        g.add(call.case());
    }
}

/// How calls with causes are drawn: `draw` gives one that nothing refuses and the positions that its last ray meets, `spoil` makes it meet a
/// cause in one of its ways. The causes are in their order, each with its number of ways.
pub struct Spoiling<'a, C> {
    pub causes: &'a [(u32, usize)],
    pub draw: fn(&mut Rng) -> (C, Vec<u32>),
    pub spoil: fn(&mut Rng, &mut C, &[u32], u32, usize),
}

impl<C: Reported> Spoiling<'_, C> {
    /// Each cause alone, in each way so many times.
    pub fn alone(&self, rng: &mut Rng, g: &mut Group, turns: usize) {
        for &(cause, ways) in self.causes {
            for way in 0..turns * ways {
                let (mut call, met) = (self.draw)(rng);
                (self.spoil)(rng, &mut call, &met, cause, way % ways);
                assert_eq!(call.report().refusal, cause);
                g.add(call.case());
            }
        }
    }

    /// Every two causes in every two ways, but so many left out, and then each so many-th taken: the one earlier in their order is given.
    /// The causes given here are also the single call's, and every two of these are seen in the last ray's.
    pub fn pairs(&self, rng: &mut Rng, g: &mut Group, some: impl Fn(u32, u32) -> (usize, usize), single: &[u32]) {
        let mut seen = BTreeSet::new();
        for (i, &(first, ways)) in self.causes.iter().enumerate() {
            for &(second, others) in &self.causes[i + 1..] {
                let (skipped, step) = some(first, second);
                let both = (0..ways).flat_map(|way| (0..others).map(move |other| (way, other)));
                for (way, other) in both.skip(skipped).step_by(step) {
                    let (call, last) = self.with_two(rng, (first, way), (second, other));
                    if last {
                        seen.insert((first, second));
                    }
                    g.add(call.case());
                }
            }
        }
        let mut due = (0..single.len()).flat_map(|i| single[i + 1..].iter().map(move |&second| (single[i], second)));
        assert!(due.all(|pair| seen.contains(&pair)));
    }

    /// A call with two causes in these ways, and whether the single call for its last ray meets both too.
    fn with_two(&self, rng: &mut Rng, (first, way): (u32, usize), (second, other): (u32, usize)) -> (C, bool) {
        let (mut a, met) = (self.draw)(rng);
        let mut b = a.clone();
        (self.spoil)(rng, &mut b, &met, second, other);
        let lesser = numbers(&b);
        let alike = rng.word();
        (self.spoil)(&mut Rng::new(alike), &mut a, &met, first, way);
        (self.spoil)(&mut Rng::new(alike), &mut b, &met, first, way);
        let (one, both) = (numbers(&a), numbers(&b));
        assert_eq!((one.0, lesser.0, both.0), (first, second, first));
        let last = (one.1, lesser.1) == (first, second);
        assert!(!last || both.1 == first);
        (b, last)
    }
}

/// The numbers of the report and of the single call for the last ray.
fn numbers(c: &impl Reported) -> (u32, u32) {
    (c.report().refusal, c.loss(2).refusal)
}

/// Calls whose last ray alone is refused, by a node that no other reaches or an index word that no other meets; and the same
/// without that ray, which nothing refuses.
fn last_ray_alone(rng: &mut Rng, g: &mut Group) {
    let [ray, short] = sample_rays();
    for word in [2, u32::MAX] {
        add_last(g, &Call { list: vec![0, word], ..sample(&[short, past_t(), short, ray]) });
    }
    let mut due = [4, 4];
    while due != [0, 0] {
        let (call, met) = untimed(rng);
        let k = rng.below(2);
        let mut hurt = call.clone();
        match k {
            0 => hurt.list[rng.pick(&met) as usize] = call.panes as u32,
            _ => hurt.record[80 * (1 + rng.below(call.record.len() / 80 - 1)) + 13] = 0,
        }
        let numbers: Vec<u32> = hurt.singles().iter().map(|s| s.refusal).collect();
        if due[k] > 0 && numbers == [0, 0, 10] {
            add_last(g, &hurt);
            due[k] -= 1;
        }
    }
}

fn add_last(g: &mut Group, call: &Call) {
    assert_eq!(call.report().refusal, 10);
    g.add(call.case());
    let rays = call.ray_list();
    let rest = call.clone().with_rays(&rays[..rays.len() - 1]);
    assert_eq!(rest.report().refusal, 0);
    g.add(rest.case());
}

/// A few rays, of which one in every eighth list is an odd one.
pub fn some_rays(rng: &mut Rng, one: impl Fn(&mut Rng) -> Ray, odd: impl Fn(&mut Rng, &Ray) -> Ray) -> Vec<Ray> {
    let mut rays: Vec<Ray> = (0..rng.pick(&[1, 2, 4])).map(|_| one(rng)).collect();
    if rng.once_in(8) {
        let k = rng.below(rays.len());
        rays[k] = odd(rng, &rays[k]);
    }
    rays
}

/// Damages record and list at random, at most so many times.
pub fn damage_record(rng: &mut Rng, call: &mut Call, most: usize) {
    let mut n = call.list.len();
    (0..1 + rng.below(most)).for_each(|_| damage(rng, &mut call.record, &mut n));
    call.list.resize(n, 0);
}

/// Records, index words and rays with something damaged, at random.
fn damaged(rng: &mut Rng, k: usize) -> Option<Vec<u32>> {
    let mut call = drawn(rng, k, |rng, t, record| some_rays(rng, |rng| aimed(rng, t, record), odd_ray))?;
    damage_record(rng, &mut call, 3);
    let n = call.list.len();
    if rng.once_in(4) && n > 0 {
        call.list[rng.below(n)] = rng.pick(&[call.panes as u32, u32::MAX]);
    }
    Some(call.case())
}

pub fn groups(seed: u64) -> Vec<Group> {
    let mut rng = Rng::new(seed);
    let rng = &mut rng;
    let (mut sums, mut refused, mut hurt) = (Group::new(LOSSES, 0), Group::new(LOSSES, 0), Group::new(LOSSES, 0));
    let share = &mut Share::default();
    of_t(&mut sums);
    (0..80).filter_map(|k| noted(rng, k, share)).for_each(|call| sums.add(call.case()));
    sums.add(over_32_bits(rng));
    (0..4).for_each(|_| sums.add(met_again(rng)));
    for (call, number) in refused_samples() {
        assert_eq!(call.report().refusal, number);
        refused.add(call.case());
    }
    none_of_something(&mut refused);
    loss_limits(&mut refused);
    let spoiling = Spoiling { causes: &CAUSES, draw: untimed, spoil };
    spoiling.alone(rng, &mut refused, 2);
    spoiling.pairs(rng, &mut refused, |_, _| (0, 1), &[1, 12, 9, 10]);
    last_ray_alone(rng, &mut hurt);
    long_walks(&mut hurt);
    (0..60).filter_map(|k| damaged(rng, k)).for_each(|case| hurt.add(case));
    println!("losses: kind {LOSSES}, {share} meet something");
    assert!(share.one_in(10));
    vec![sums, refused, hurt, loss_sizes::group()]
}
