//! Quarter hours by their rules, which the Rust has not: spans, lists of them, and the side table beside a record.
use crate::record::node;
use crate::rng::Rng;

/// The last quarter of a day.
pub const LAST: u8 = 95;

/// The bytes beside a node: a span for each of its slots.
pub const SIDE: usize = 16;

#[derive(Clone, Copy, PartialEq, Debug)]
pub struct Span {
    pub first: u8,
    pub last: u8,
}

impl Span {
    pub fn holds(self, quarter: u8) -> bool {
        self.first <= quarter && quarter <= self.last
    }

    /// Whether it may stand in a list of spans.
    fn fits(self) -> bool {
        self.first <= self.last && self.last <= LAST
    }
}

/// Two bytes as a span.
fn span(two: &[u8]) -> Span {
    Span { first: two[0], last: two[1] }
}

/// Span k of a list or of a side table.
pub fn span_at(bytes: &[u8], k: usize) -> Span {
    span(&bytes[2 * k..])
}

/// Whether a list has two bytes a pane, and spans only that do not end before they begin, nor after the day.
pub fn fit(panes: usize, spans: &[u8]) -> bool {
    spans.len() as u128 == 2 * panes as u128 && spans.chunks(2).all(|s| span(s).fits())
}

/// The positions below a slot of a record whose child ranges start past the node's own number: those of a leaf, or all that are below
/// the child's slots.
pub fn below(record: &[u8], i: usize, slot: usize) -> Vec<u64> {
    let d = node(record, i);
    if d.is_leaf_slot(slot) {
        let (first, count) = d.leaf_range(slot);
        return (first..first + count).collect();
    }
    if d.meta(slot) == 0 {
        return vec![];
    }
    let rank = (d.imask() & ((1 << slot) - 1)).count_ones();
    (0..8).flat_map(|s| below(record, (d.child_base() + rank) as usize, s)).collect()
}

/// The side table of a converted record: for each slot the least first quarter and the greatest last one of all panes below it, or
/// zeros.
pub fn side_table(record: &[u8], list: &[u32], spans: &[u8]) -> Vec<u8> {
    let mut side = vec![];
    for (i, slot) in (0..record.len() / 80).flat_map(|i| (0..8).map(move |slot| (i, slot))) {
        let own: Vec<Span> = below(record, i, slot).iter().map(|&p| span_at(spans, list[p as usize] as usize)).collect();
        let first = own.iter().map(|s| s.first).min();
        let last = own.iter().map(|s| s.last).max();
        side.extend([first.unwrap_or(0), last.unwrap_or(0)]);
    }
    side
}

/// Spans of so many panes that are drawn all day.
pub fn all_day(panes: usize) -> Vec<u8> {
    [0, LAST].repeat(panes)
}

/// A side table that is open all day, but for slots that hold nothing.
pub fn always_open(record: &[u8]) -> Vec<u8> {
    let slots = (0..8 * (record.len() / 80)).map(|k| node(record, k / 8).meta(k % 8) != 0);
    slots.flat_map(|used| if used { [0, LAST] } else { [0, 0] }).collect()
}

/// How the spans of a list are drawn.
#[derive(Clone, Copy)]
enum Kind {
    AllDay,
    Alike,
    Any,
    Short,
    Ends,
    Corners,
}

const KINDS: [Kind; 8] = [Kind::AllDay, Kind::Alike, Kind::Any, Kind::Any, Kind::Short, Kind::Short, Kind::Ends, Kind::Corners];

/// A span within the day: any, of a few quarters, from its start or to its end, or between corners.
fn some_span(rng: &mut Rng, kind: Kind) -> Span {
    let quarter = |rng: &mut Rng| rng.below(LAST as usize + 1) as u8;
    let (a, b) = match kind {
        Kind::AllDay => (0, LAST),
        Kind::Alike | Kind::Any => (quarter(rng), quarter(rng)),
        Kind::Short => {
            let a = quarter(rng);
            (a, (a + rng.pick(&[0, 0, 1, 5, 12])).min(LAST))
        }
        Kind::Ends => rng.pick(&[(0, 10), (90, LAST), (0, 0), (LAST, LAST), (0, 90)]),
        Kind::Corners => (rng.pick(&[0, 1, 47, 48, LAST]), rng.pick(&[0, 1, 47, 48, LAST])),
    };
    Span { first: a.min(b), last: a.max(b) }
}

/// The spans of so many panes.
pub fn some_spans(rng: &mut Rng, panes: usize) -> Vec<u8> {
    let kind = rng.pick(&KINDS);
    let alike = some_span(rng, kind);
    let mut one = || if matches!(kind, Kind::Alike) { alike } else { some_span(rng, kind) };
    (0..panes).map(|_| one()).flat_map(|s| [s.first, s.last]).collect()
}

/// A quarter of the day, mostly at an end of some span or beside it.
pub fn some_quarter(rng: &mut Rng, spans: &[u8]) -> u8 {
    match rng.below(8) {
        0 => rng.below(LAST as usize + 1) as u8,
        1 => rng.pick(&[0, LAST]),
        _ if spans.is_empty() => 48,
        2 | 3 => rng.pick(spans).saturating_add(1).min(LAST),
        4 => rng.pick(spans).saturating_sub(1).min(LAST),
        _ => rng.pick(spans).min(LAST),
    }
}

/// A side table of a record that no conversion wrote: any bytes, spans that end before they begin, or past the day, all slots open, or
/// one byte of the table given changed.
pub fn odd_side(rng: &mut Rng, side: &[u8]) -> Vec<u8> {
    let mut side = side.to_vec();
    let kind = rng.below(6);
    for two in side.chunks_mut(2) {
        match kind {
            0 => two.iter_mut().for_each(|b| *b = rng.bits() as u8),
            1 => two.copy_from_slice(&rng.pick(&[[0, 255], [0, 0], [95, 0], [0, 95], [0, 96], [255, 255], [48, 47]])),
            2 if rng.once_in(3) => two.swap(0, 1),
            3 => two.iter_mut().for_each(|b| *b = rng.below(96) as u8),
            4 => two.copy_from_slice(&[0, 255]),
            _ => {}
        }
    }
    if !side.is_empty() && kind > 1 {
        let k = rng.below(side.len());
        side[k] = rng.pick(&[0, 1, 47, 94, 95, 96, 254, 255]);
    }
    side
}
