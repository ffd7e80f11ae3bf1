//! Timed walks and queries by their rules, which the Rust has not: a walker with a quarter hour, on lists with a side table and spans.
//! The untimed walker of `walker.rs` does their steps, where slots are shut and positions passed over as this file says.
use crate::accept::accepted_ray;
use crate::spans::{LAST, SIDE, Span, fit, span_at};
use crate::walk::{Answer, Walking, entry_cause, found, listed, refused};
use crate::walker::{Step, Walker, size_cause};
use obvhs::ray::Ray;

/// What a timed walk is on: a record with its side table, an index word for each position, and the spans of so many panes.
#[derive(Clone, Copy)]
pub struct Lists<'a> {
    pub record: &'a [u8],
    pub side: &'a [u8],
    pub list: &'a [u32],
    pub panes: usize,
    pub spans: &'a [u8],
}

impl Lists<'_> {
    /// No cause 14 of the lists: the spans fit the panes, and the side table has 16 bytes a node.
    pub fn timely(&self) -> bool {
        fit(self.panes, self.spans) && self.side.len() == SIDE * (self.record.len() / 80)
    }

    /// Whether the span of a node's slot holds a quarter.
    fn slot_open(&self, node: usize, slot: usize, quarter: u8) -> bool {
        span_at(self.side, 8 * node + slot).holds(quarter)
    }

    /// The span of a position's own pane; none where there is no such position, or its index word names no pane.
    fn own_span(&self, p: u64) -> Option<Span> {
        let pane = *self.list.get(p as usize)? as usize;
        (pane < self.panes).then(|| span_at(self.spans, pane))
    }

    /// Causes 14 and 9 of a ray at a quarter on these lists, or 0.
    pub fn ray_cause(&self, ray: &Ray, quarter: u8) -> u32 {
        if !self.timely() || quarter > LAST {
            return 14;
        }
        if accepted_ray(ray) { 0 } else { 9 }
    }

    /// Causes 1, 2, 14 and 9 of a query, or 0; `corners` counts the words of panes.
    fn cause(&self, corners: usize, ray: &Ray, quarter: u8) -> u32 {
        match entry_cause(self.record, self.list.len(), corners) {
            0 => self.ray_cause(ray, quarter),
            number => number,
        }
    }
}

/// A walker with the quarter that its ray belongs to.
#[derive(Clone)]
pub struct TimedWalker {
    pub walker: Walker,
    pub quarter: u8,
}

/// The number of a refusal of a timed walker to be begun, or 0.
pub fn start_cause(ray: &Ray, quarter: u8) -> u32 {
    if quarter > LAST {
        return 14;
    }
    if accepted_ray(ray) { 0 } else { 9 }
}

impl TimedWalker {
    pub fn fresh(ray: &Ray, quarter: u8) -> TimedWalker {
        TimedWalker { walker: Walker::fresh(ray), quarter }
    }

    /// A step on any lists: causes 1, 2, 14 and 10 in this order; refused, it changes nothing. Positions in hand whose own span does
    /// not hold the quarter are passed over in the step that comes to them.
    pub fn step(&mut self, on: Lists) -> Step {
        let (record, quarter) = (on.record, self.quarter);
        match size_cause(record, on.list.len()) {
            0 if !on.timely() => return Step::Refused(14),
            0 if quarter > LAST || self.walker.forged(record.len() / 80) => return Step::Refused(10),
            0 => {}
            number => return Step::Refused(number),
        }
        let mut next = self.walker.clone();
        while let Some(&p) = next.positions.first() {
            match on.own_span(p) {
                None => return Step::Refused(10),
                Some(own) if own.holds(quarter) => break,
                Some(_) => next.positions.remove(0),
            };
        }
        let s = next.advance(record, on.list.len(), |node, slot| on.slot_open(node, slot, quarter));
        if !matches!(s, Step::Refused(_)) {
            self.walker = next;
        }
        s
    }
}

/// A timed walk under way, each of whose steps is on the same lists.
pub struct TimedWalk<'a> {
    walker: TimedWalker,
    on: Lists<'a>,
}

impl Walking for TimedWalk<'_> {
    fn step(&mut self) -> Step {
        self.walker.step(self.on)
    }

    fn walker(&mut self) -> &mut Walker {
        &mut self.walker.walker
    }
}

/// A timed walk that begins with a ray at a quarter.
pub fn begun<'a>(on: Lists<'a>, ray: &Ray, quarter: u8) -> TimedWalk<'a> {
    TimedWalk { walker: TimedWalker::fresh(ray, quarter), on }
}

/// Timed any-hit with room for so many positions.
pub fn any_hit(on: Lists, ray: &Ray, quarter: u8, room: usize) -> Answer {
    match on.cause(0, ray, quarter) {
        0 => listed(begun(on, ray, quarter), room),
        number => refused(number),
    }
}

/// Timed closest among panes, or with `first` miss. The lists are for as many panes.
pub fn nearest(on: Lists, panes: &[u32], ray: &Ray, quarter: u8, first: bool) -> Answer {
    let on = Lists { panes: panes.len() / 6, ..on };
    match on.cause(panes.len(), ray, quarter) {
        0 => found(begun(on, ray, quarter), on.list, panes, first),
        number => refused(number),
    }
}

/// Any-hit by its definition, on a record whose child ranges start past the node's own number: how many nodes are reached, and the
/// first node's listing. A slot lets through what its box and its span both let through, a position is listed by its own span too.
pub fn listing(on: Lists, ray: &Ray, quarter: u8) -> (u32, Vec<u32>) {
    let (mut reached, mut positions) = (0, vec![]);
    let from = Walker::fresh(ray);
    if !on.record.is_empty() {
        list_node(on, &from, quarter, 0, &mut reached, &mut positions);
    }
    (reached, positions)
}

fn list_node(on: Lists, ray: &Walker, quarter: u8, node: usize, reached: &mut u32, positions: &mut Vec<u32>) {
    let (own, children) = ray.open(on.record, node, |i, slot| on.slot_open(i, slot, quarter));
    *reached += 1;
    positions.extend(own.iter().filter(|&&p| on.own_span(p).unwrap().holds(quarter)).map(|&p| p as u32));
    children.iter().for_each(|&child| list_node(on, ray, quarter, child as usize, reached, positions));
}
