//! The queries by their rules, with the refusals that the Rust has not. No code is shared with the published traversals
//! but a pane's entry distance.
use crate::accept::{accepted_box, accepted_ray};
use crate::tree::{aabb, unsigned_zero};
use crate::walker::{Held, Step, Walker, counts, size_cause};
use obvhs::ray::Ray;

/// The first of causes 1 and 2 of a query, or 0; `panes` counts words.
pub fn entry_cause(record: &[u8], n: usize, panes: usize) -> u32 {
    if panes % 6 != 0 { 1 } else { size_cause(record, n) }
}

/// Causes 1, 2 and 9 of a query, or 0.
fn query_refusal(record: &[u8], n: usize, panes: usize, ray: &Ray) -> u32 {
    match entry_cause(record, n, panes) {
        0 if !accepted_ray(ray) => 9,
        number => number,
    }
}

/// A query's answer: its refusal (0: none), its tests, and what it found.
#[derive(Clone, Default, PartialEq, Debug)]
pub struct Answer {
    pub refusal: u32,
    pub tests: u32,
    /// Any-hit: the positions. Closest: none, or position and distance bits. Miss: 1 or 0.
    pub found: Vec<u32>,
}

/// Refused with this number.
pub fn refused(number: u32) -> Answer {
    Answer { refusal: number, ..Default::default() }
}

/// A walk under way, each of whose steps is on the same lists.
pub trait Walking {
    fn step(&mut self) -> Step;

    fn walker(&mut self) -> &mut Walker;
}

/// A walker on a record of so many positions.
pub struct OnRecord<'a> {
    walker: Walker,
    record: &'a [u8],
    n: usize,
}

impl Walking for OnRecord<'_> {
    fn step(&mut self) -> Step {
        self.walker.step(self.record, self.n)
    }

    fn walker(&mut self) -> &mut Walker {
        &mut self.walker
    }
}

/// A walk that begins with a ray.
pub fn begun<'a>(record: &'a [u8], n: usize, ray: &Ray) -> OnRecord<'a> {
    OnRecord { walker: Walker::fresh(ray), record, n }
}

/// What a walk reports, to the end.
pub fn reports(mut w: impl Walking, mut met: impl FnMut(u32) -> Result<(), u32>) -> Result<u32, u32> {
    loop {
        match w.step() {
            Step::Tested => {}
            Step::Reported(p) => met(p)?,
            Step::Done => return Ok(w.walker().tests),
            Step::Refused(number) => return Err(number),
        }
    }
}

/// Any-hit by a walk, with room for so many positions; refused 11, it finds the length needed.
pub fn listed(w: impl Walking, room: usize) -> Answer {
    let mut found = vec![];
    let walked = reports(w, |p| {
        found.push(p);
        Ok(())
    });
    match walked {
        Err(number) => refused(number),
        Ok(_) if found.len() > room => Answer { refusal: 11, tests: 0, found: vec![found.len() as u32] },
        Ok(tests) => Answer { refusal: 0, tests, found },
    }
}

/// Any-hit on a record of so many positions.
pub fn any_hit(record: &[u8], n: usize, ray: &Ray, room: usize) -> Answer {
    match query_refusal(record, n, 0, ray) {
        0 => listed(begun(record, n, ray), room),
        number => refused(number),
    }
}

/// A position's distance by its pane, or 10 or 6.
fn distance(panes: &[u32], list: &[u32], p: u32, ray: &Ray) -> Result<f32, u32> {
    let pane = list[p as usize] as usize;
    if pane >= panes.len() / 6 {
        return Err(10);
    }
    let b = aabb(&panes[6 * pane..]);
    if !accepted_box(&b) {
        return Err(6);
    }
    Ok(unsigned_zero(b.intersect_ray(ray)))
}

/// Closest by a walk, or with `first` miss: stop at the first distance that counts. A pane is tested whole before its distance is
/// looked at.
pub fn found(mut w: impl Walking, list: &[u32], panes: &[u32], first: bool) -> Answer {
    let mut hit = vec![];
    loop {
        match w.step() {
            Step::Tested => {}
            Step::Reported(p) => match distance(panes, list, p, &w.walker().ray) {
                Err(number) => return refused(number),
                Ok(d) if counts(&w.walker().ray, d) => {
                    hit = vec![p, d.to_bits()];
                    if first {
                        break;
                    }
                    w.walker().tell(d);
                }
                Ok(_) => {}
            },
            Step::Done => break,
            Step::Refused(number) => return refused(number),
        }
    }
    let found = if first { vec![hit.is_empty() as u32] } else { hit };
    Answer { refusal: 0, tests: w.walker().tests, found }
}

/// Closest among panes, or with `first` miss.
pub fn nearest(record: &[u8], list: &[u32], panes: &[u32], ray: &Ray, first: bool) -> Answer {
    match query_refusal(record, list.len(), panes.len(), ray) {
        0 => found(begun(record, list.len(), ray), list, panes, first),
        number => refused(number),
    }
}

/// The steps of a walk, the k-th report told the k-th distance, to the first done or refusal; and the bits of tmax then.
pub fn steps_of(mut w: impl Walking, told: &[f32]) -> (Vec<Step>, u32) {
    let mut out = vec![];
    let mut reports = 0;
    loop {
        let s = w.step();
        out.push(s);
        match s {
            Step::Tested => {}
            Step::Reported(_) => {
                w.walker().tell(told[reports % told.len()]);
                reports += 1;
            }
            Step::Done | Step::Refused(_) => return (out, w.walker().ray.tmax.to_bits()),
        }
    }
}

/// The same from a walker on a record of so many positions.
pub fn steps(record: &[u8], n: usize, from: &Held, told: &[f32]) -> (Vec<Step>, u32) {
    steps_of(OnRecord { walker: Walker::of(from), record, n }, told)
}

