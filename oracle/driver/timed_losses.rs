//! Stored timed losses: reports over records, side tables and rays at their quarters, with the single call's answer for each ray. Over
//! side tables that a conversion writes the positions are the published any-hit's in their hours, and all sums must be those of the
//! rules; damaged calls are answered by the rules.
use crate::loss::{Call, Reported};
use crate::losses::{Spoiling, damage_record, drawn, few_of_each, meeting, past_t, sample, sample_rays, some_rays, spoil};
use crate::queries::{odd_ray, refused_ray};
use crate::rng::Rng;
use crate::spans::{LAST, SIDE, odd_side, some_spans};
use crate::store::*;
use crate::timed_corners::SAMPLE_SPANS;
use crate::timed_loss::TimedCall;
use crate::timed_loss_sizes;
use crate::timed_queries::far_reaching;
use crate::tree::Tree;
use obvhs::ray::Ray;

/// Causes in their order with the ways to meet them; 2 is in the other kind.
const CAUSES: [(u32, usize); 6] = [(1, 3), (4, 2), (12, 4), (14, 8), (9, 2), (10, 4)];

/// T with losses 3000 and 500, spans from 32 to 63 and from 60 to 95, and these rays at their quarters.
pub fn timed_sample(rays: &[Ray], quarters: &[u8]) -> TimedCall {
    let plain = sample(rays);
    let call = TimedCall::converted(&mut Rng::new(0), plain, SAMPLE_SPANS.to_vec());
    TimedCall { quarters: quarters.to_vec(), ..call }
}

/// T's ray in each of its hours, and rays of one list at several.
fn of_t(g: &mut Group) {
    let [ray, short] = sample_rays();
    for (quarter, rays, panes) in [(40, 3000, [3000, 0]), (61, 3500, [3000, 500]), (70, 500, [0, 500]), (10, 0, [0, 0])] {
        let call = timed_sample(&[ray], &[quarter]);
        let r = call.agreed();
        assert!((r.rays[0], &r.panes[..], r.tests) == (rays, &panes[..], 1));
        g.add(call.case());
    }
    for quarters in [[61, 40, 70, 10, 95, 0], [10, 70, 61, 40, 0, 95], [61, 61, 61, 61, 61, 61]] {
        for rays in [[ray, ray, ray, ray, ray, ray], [ray, short, past_t(), short, short, ray]] {
            let call = timed_sample(&rays, &quarters);
            call.agreed();
            g.add(call.case());
        }
    }
    for list in [[1, 0], [1, 1], [0, 0]] {
        let plain = Call { list: list.to_vec(), ..sample(&[ray, ray, ray]) };
        let call = TimedCall::converted(&mut Rng::new(1), plain, SAMPLE_SPANS.to_vec());
        call.agreed();
        g.add(call.case());
    }
}

/// With some spans, and the side table that a conversion of these writes.
fn converted(rng: &mut Rng, plain: Call) -> TimedCall {
    let spans = some_spans(rng, plain.panes);
    TimedCall::converted(rng, plain, spans)
}

/// Rays over converted trees, all day or at quarters. Prints how many of the rays lose something.
fn answered(rng: &mut Rng, g: &mut Group, trees: usize, timed: bool) {
    let (mut rays, mut losing) = (0, 0);
    for k in 0..trees {
        let far = |rng: &mut Rng, t: &Tree, record: &[u8]| {
            (0..rng.pick(&[0, 1, 2, 4, 6, 8])).map(|_| far_reaching(rng, t, record, 4)).collect()
        };
        let Some(plain) = drawn(rng, k, far) else { continue };
        let spans = some_spans(rng, plain.panes);
        let call = if timed { TimedCall::converted(rng, plain, spans) } else { TimedCall::all_day(rng, plain) };
        let r = call.agreed();
        rays += r.rays.len();
        losing += r.rays.iter().filter(|&&sum| sum > 0).count();
        g.add(call.case());
    }
    println!("timed losses: kind {TIMED_LOSSES}, {rays} rays, of which {losing} lose something");
}

/// No rays, no panes, no nodes, and all of these together.
fn none_of_something(g: &mut Group) {
    let rays = [past_t(), sample_rays()[0]];
    few_of_each(g, &[&[0, 1]], &[0, 2], &[&[], &rays], |plain| TimedCall::all_day(&mut Rng::new(2), plain));
}

/// A call of three rays that nothing refuses, and the positions that the last ray meets.
fn at_quarters(rng: &mut Rng) -> (TimedCall, Vec<u32>) {
    meeting(rng, |rng, t, record| far_reaching(rng, t, record, 8), converted)
}

/// Makes a call meet a cause in one of its ways.
fn hurt(rng: &mut Rng, c: &mut TimedCall, met: &[u32], cause: u32, way: usize) {
    let (span, slots, last) = (c.spans.len() - 2, c.side.len(), c.quarters.len() - 1);
    let bad_spans = [[1, 0], [95, 94], [0, 96], [96, 96], [0, 255], [255, 255]];
    match (cause, way) {
        (1, 2) if rng.once_in(2) => c.quarters.truncate(rng.pick(&[0, last])),
        (1, 2) => c.quarters.extend(vec![5; 1 + rng.below(2)]),
        (14, 0) => c.spans.truncate(span + rng.below(2)),
        (14, 1) => c.spans.extend(vec![0; 1 + rng.below(2)]),
        (14, 2) => c.spans[..2].copy_from_slice(&rng.pick(&bad_spans)),
        (14, 3) => c.spans[span..].copy_from_slice(&rng.pick(&bad_spans)),
        (14, 4) => c.side.truncate(slots - 1 - rng.below(SIDE)),
        (14, 5) => c.side.extend(vec![0; 1 + rng.below(SIDE)]),
        (14, 6) => c.quarters[0] = LAST + 1,
        (14, _) => c.quarters[last] = rng.pick(&[LAST + 1, 128, 255]),
        _ => spoil(rng, &mut c.plain, met, cause, way),
    }
}

/// How many ways of two causes are left out, and how far apart those taken are: with 14 all are taken.
fn some_ways(first: u32, second: u32) -> (usize, usize) {
    if first == 14 || second == 14 { (0, 1) } else { (1, 3) }
}

/// Calls whose last ray alone is refused: by an index word that no other meets in its hours; and with the last ray at a quarter at
/// which it does not meet it, which nothing refuses.
fn last_ray_alone(g: &mut Group) {
    let [ray, short] = sample_rays();
    for (list, met, past) in [([2, 1], 40, 70), ([0, 2], 70, 40)] {
        for (quarter, number) in [(met, 10), (past, 0)] {
            let mut call = timed_sample(&[short, past_t(), ray, ray], &[10, 61, past, quarter]);
            call.plain.list = list.to_vec();
            assert_eq!(call.report().refusal, number);
            g.add(call.case());
        }
    }
}

/// Records, index words, side tables and rays with something damaged, at random; and side tables of any bytes.
fn damaged(rng: &mut Rng, k: usize) -> Option<Vec<u32>> {
    let odd = |rng: &mut Rng, r: &Ray| if rng.once_in(2) { odd_ray(rng, r) } else { refused_ray(rng, r) };
    let plain = drawn(rng, k, |rng, t, record| some_rays(rng, |rng| far_reaching(rng, t, record, 4), odd))?;
    let mut call = converted(rng, plain);
    match rng.below(4) {
        0 => damage_record(rng, &mut call.plain, 2),
        1 if !call.plain.list.is_empty() => {
            let k = rng.below(call.plain.list.len());
            call.plain.list[k] = rng.pick(&[call.plain.panes as u32, u32::MAX]);
        }
        _ => call.side = odd_side(rng, &call.side),
    }
    Some(call.case())
}

pub fn groups(seed: u64) -> Vec<Group> {
    let mut rng = Rng::new(seed);
    let rng = &mut rng;
    let [mut sums, mut refused, mut damages] = [(); 3].map(|_| Group::new(TIMED_LOSSES, 0));
    of_t(&mut sums);
    answered(rng, &mut sums, 30, false);
    answered(rng, &mut sums, 60, true);
    none_of_something(&mut refused);
    let spoiling = Spoiling { causes: &CAUSES, draw: at_quarters, spoil: hurt };
    spoiling.alone(rng, &mut refused, 1);
    spoiling.pairs(rng, &mut refused, some_ways, &[1, 12, 14, 9, 10]);
    last_ray_alone(&mut damages);
    (0..60).filter_map(|k| damaged(rng, k)).for_each(|case| damages.add(case));
    vec![sums, refused, damages, timed_loss_sizes::group()]
}
