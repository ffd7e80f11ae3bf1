//! Stored timed conversions: accepted trees with all that the published conversion writes and the side table by the rules, and refused
//! ones with their cause. The published conversion knows no quarters, so that a call which 14 does not refuse must leave what it leaves.
use crate::accept::{MOST_LEAVES, Room, conversion_refusal};
use crate::conversions::{self, call, case, some_tree};
use crate::convert::{Converted, convert};
use crate::corners::{RECORD_BYTES, SETTINGS};
use crate::generate::{BOXES, Boxes, Shape, chain, tree};
use crate::loss::two_words;
use crate::rng::Rng;
use crate::spans::{LAST, SIDE, all_day, always_open, fit, side_table, some_spans};
use crate::store::*;
use crate::timed_corners::{SAMPLE_SPANS, hull_over_a_leaf};
use crate::tree::{Tree, sample_tree};

/// The most bytes of a side table that are lent beside a tree of zero words.
const MOST_SIDE: usize = 2048;

/// The bytes of a side table that a tree of n leaves needs.
fn side_room(n: usize) -> usize {
    if n == 0 { 0 } else { SIDE * 1.max(n - 1) }
}

/// How many panes the index words name.
fn named(t: &Tree) -> usize {
    t.indices.iter().max().map_or(0, |&x| x as usize + 1)
}

/// n, limit, order, panes, record nodes, deepest level; node words, indices, spans; decision words, cost bits, record, list, side table.
fn accepted_case(t: &Tree, limit: u32, order: bool, c: &Converted, spans: &[u8]) -> Vec<u32> {
    let plain = case(t, limit, order, c);
    let (head, trees) = plain.split_at(5);
    let (tree, outputs) = trees.split_at(t.nodes.len() + t.indices.len());
    let side = side_table(&c.record, &c.list, spans);
    let panes = [spans.len() as u32 / 2];
    [&head[..3], &panes, &head[3..], tree, &words_of(spans), outputs, &words_of(&side)].concat()
}

/// The accepted trees so far.
struct Accepted {
    cases: Group,
}

impl Accepted {
    fn add(&mut self, t: &Tree, (limit, order): (u32, bool), spans: &[u8]) {
        let c = convert(t, limit, order);
        let timed = Call::new(t, limit, spans);
        match timed.number(order) {
            0 => self.cases.add(accepted_case(t, limit, order, &c, spans)),
            number => assert!(number == 8 && c.deepest > 31),
        }
        if spans == all_day(spans.len() / 2) {
            assert_eq!(side_table(&c.record, &c.list, spans), always_open(&c.record));
        }
    }
}

/// T, no leaf, and one, at each setting; spans at both ends of the day.
fn few_leaves(rng: &mut Rng, all: &mut Accepted) {
    for (k, setting) in SETTINGS.into_iter().enumerate() {
        all.add(&sample_tree(), setting, &SAMPLE_SPANS);
        all.add(&sample_tree(), setting, &[[0, 0, 95, 95], [95, 95, 0, 95], [0, 95, 0, 95]][k % 3]);
        all.add(&Tree::default(), setting, &all_day(k / 2));
        let mut one = tree(rng, 1, Shape::Balanced, BOXES[k]);
        one.indices = vec![k as u32 / 2];
        let spans = some_spans(rng, k / 2 + 1);
        all.add(&one, setting, &spans);
    }
}

fn accepted(rng: &mut Rng, count: usize) -> Group {
    let mut all = Accepted { cases: Group::new(TIMED_CONVERSION, 0) };
    few_leaves(rng, &mut all);
    for _ in 0..6 {
        let (t, s, _) = hull_over_a_leaf(rng);
        let setting = rng.pick(&SETTINGS);
        all.add(&t, (3, setting.1), &s.spans);
        all.add(&t, setting, &s.spans);
    }
    for k in 0..count {
        let t = some_tree(rng, k);
        if t.indices.iter().all(|&x| (x as usize) < t.indices.len()) {
            let panes = named(&t) + rng.pick(&[0, 0, 0, 1, 5]);
            let (spans, setting) = (some_spans(rng, panes), rng.pick(&SETTINGS));
            all.add(&t, setting, &spans);
        }
    }
    let balanced = tree(rng, 100, Shape::Balanced, Boxes::Spread);
    let spans = some_spans(rng, 100);
    all.add(&balanced, (1, true), &spans);
    for (n, far) in [(33, 0), (34, 0), (40, 240), (128, 1)] {
        let mut t = chain(n, if far == 0 { Boxes::Point } else { Boxes::Spread });
        t.indices.iter_mut().for_each(|x| *x += far);
        let spans = some_spans(rng, n + far as usize);
        all.add(&t, (3, n % 2 == 0), &spans);
    }
    all.cases
}

/// A call of the timed conversion.
struct Call {
    plain: conversions::Call,
    side: usize,
    panes: usize,
    spans: Vec<u8>,
}

impl Call {
    /// With just the room that the tree needs.
    fn new(t: &Tree, limit: u32, spans: &[u8]) -> Call {
        let n = t.indices.len();
        let plain = conversions::Call { tree: t.clone(), limit, room: Room::needed(n) };
        Call { plain, side: side_room(n), panes: spans.len() / 2, spans: spans.to_vec() }
    }

    /// One that is not refused, with some more room.
    fn drawn(rng: &mut Rng, k: usize) -> Call {
        let plain = call(rng, k);
        let panes = named(&plain.tree) + rng.pick(&[0, 0, 2]);
        let side = side_room(plain.tree.indices.len()) + rng.below(20);
        Call { plain, side, panes, spans: some_spans(rng, panes) }
    }

    /// No cause 14 holds: the spans fit the panes, and each index word names one.
    fn timely(&self) -> bool {
        fit(self.panes, &self.spans) && self.plain.tree.indices.iter().all(|&x| (x as usize) < self.panes)
    }

    /// The first cause, or 0: 1, 2, 3, 4, 5, 6, 14, 7, 8.
    fn number(&self, order: bool) -> u32 {
        let t = &self.plain.tree;
        match conversion_refusal(t, self.plain.limit, self.plain.room) {
            number @ 1..=3 => number,
            _ if self.side < side_room(t.indices.len()) => 4,
            number @ 4..=6 => number,
            _ if !self.timely() => 14,
            0 if convert(t, self.plain.limit, order).deepest > 31 => 8,
            number => number,
        }
    }

    /// Makes the call meet 14 in one of its ways.
    fn spoil_hours(&mut self, rng: &mut Rng, way: usize) {
        let (panes, bytes) = (self.panes, self.spans.len());
        let bad = rng.pick(&[[1, 0], [LAST, LAST - 1], [0, LAST + 1], [LAST + 1, LAST + 1], [0, 255], [255, 0], [255, 255]]);
        let k = rng.below(self.plain.tree.indices.len());
        match way {
            0 => self.spans.truncate(bytes - 1 - rng.below(2)),
            1 => self.spans.extend(vec![0; 1 + rng.below(2)]),
            2 => self.spans[..2].copy_from_slice(&bad),
            3 => self.spans[bytes - 2..].copy_from_slice(&bad),
            4 => self.plain.tree.indices[k] = panes as u32,
            5 => self.plain.tree.indices[k] = rng.pick(&[u32::MAX, 1 << 31, panes as u32 + 1]),
            6 => self.panes = rng.pick(&[panes - 1, panes + 1, 0]),
            _ => (self.panes, self.spans) = (rng.pick(&[1 << 63, usize::MAX]), vec![]),
        }
    }

    /// Makes the call meet a cause, but 2, in one of some ways.
    fn spoil(&mut self, rng: &mut Rng, cause: u32, way: usize) {
        match (cause, way) {
            (14, _) => self.spoil_hours(rng, way),
            (4, 0) => self.side = side_room(self.plain.tree.indices.len()) - 1 - rng.below(SIDE),
            (8, _) => {
                self.plain.spoil(rng, 8);
                self.panes = named(&self.plain.tree);
                self.spans = some_spans(rng, self.panes);
                self.side = side_room(self.plain.tree.indices.len());
            }
            _ => self.plain.spoil(rng, cause),
        }
    }

    /// Lengths of node words and index words, of decisions, costs, record, list and side table, bytes of the spans; panes in two words;
    /// limit, order, number; node words, indices, spans.
    fn case(&self, order: bool, number: u32) -> Vec<u32> {
        let t = &self.plain.tree;
        [self.head(order, number), t.nodes.clone(), t.indices.clone(), words_of(&self.spans)].concat()
    }

    fn head(&self, order: bool, number: u32) -> Vec<u32> {
        let (t, limit) = (&self.plain.tree, self.plain.limit);
        let plain = conversions::sizes_case(t.nodes.len(), t.indices.len(), limit, order, self.plain.room, number);
        let (lengths, rest) = plain.split_at(6);
        [lengths, &[self.side as u32, self.spans.len() as u32], &two_words(self.panes as u64), rest].concat()
    }
}

/// T with a byte of its spans missing is refused 14, with leaf limit 4 too 3, with both leaves at one position 14, and with a box that
/// is not finite 6.
pub fn samples() -> bool {
    let short = |spoil: fn(&mut conversions::Call)| {
        let mut c = Call::new(&sample_tree(), 3, &SAMPLE_SPANS);
        c.spans.truncate(3);
        spoil(&mut c.plain);
        c.number(false)
    };
    let numbers = [
        short(|_| ()),
        short(|c| c.limit = 4),
        short(|c| c.tree.nodes[20] = c.tree.nodes[13]),
        short(|c| c.tree.nodes[3] = f32::INFINITY.to_bits()),
    ];
    numbers == [14, 3, 14, 6]
}

/// Causes in their order with the ways to meet them.
const CAUSES: [(u32, usize); 8] = [(1, 1), (3, 1), (4, 2), (5, 1), (6, 1), (14, 8), (7, 1), (8, 1)];

/// Every two causes that can hold together of which one is 14, or 4 by the side table, in every way, and each of these alone; so many
/// times.
fn refused(rng: &mut Rng, times: usize) -> Group {
    let mut g = Group::new(TIMED_CONVERSION_REFUSED, 0);
    for k in 0..times {
        for (i, (first, ways)) in CAUSES.into_iter().enumerate() {
            for way in 0..ways {
                let (mut c, order) = (Call::drawn(rng, k + way), rng.once_in(2));
                assert_eq!(c.number(order), 0);
                c.spoil(rng, first, way);
                assert_eq!(c.number(order), first);
                g.add(c.case(order, first));
                for (second, others) in CAUSES.into_iter().skip(i + 1) {
                    let by_side = |cause: u32, way: usize| (cause, way) == (4, 0);
                    let of_these = |other: usize| first == 14 || second == 14 || by_side(first, way) || by_side(second, other);
                    for other in (0..others).filter(|&other| of_these(other)) {
                        let (mut c, order) = (Call::drawn(rng, k + other), rng.once_in(2));
                        c.spoil(rng, second, other);
                        assert_eq!(c.number(order), second);
                        c.spoil(rng, first, way);
                        assert_eq!(c.number(order), first);
                        g.add(c.case(order, first));
                    }
                }
            }
        }
    }
    g
}

/// No leaves with panes: spans are looked at all the same. One leaf with a byte of the side table too few.
fn few_refused(g: &mut Group) {
    let none = Tree::default();
    let faults: [(usize, &[u8]); 6] = [(1, &[]), (1, &[1, 0]), (1, &[0, 96]), (0, &[0]), (0, &[0, 0]), (1 << 63, &[])];
    for (panes, spans) in faults {
        let c = Call { panes, spans: spans.to_vec(), ..Call::new(&none, 3, &[]) };
        assert_eq!(c.number(false), 14);
        g.add(c.case(false, 14));
    }
    let one = chain(1, Boxes::Spread);
    let c = Call { side: 15, ..Call::new(&one, 3, &[5, 5]) };
    assert_eq!(c.number(true), 4);
    g.add(c.case(true, 4));
}

/// Refusals by lengths alone, where the words of the tree are zero, and the spans but for that of one pane: these, the pane, its first
/// and last quarter. No leaves are refused by spans alone, or not at all.
fn sizes() -> Group {
    let mut g = Group::new(TIMED_CONVERSION_SIZES, 16);
    let mut add = |c: Call, other: usize, span: [u8; 2]| {
        let number = c.number(false);
        if c.plain.room.record as u32 <= RECORD_BYTES && (number < 5 || number == 14) {
            g.add([c.head(false, number), vec![other as u32, span[0] as u32, span[1] as u32]].concat());
        }
    };
    let none = Room { decisions: 0, costs: 0, record: 0, list: 0 };
    for n in [0, 1, 2, 3, 100, MOST_LEAVES, MOST_LEAVES + 1] {
        let words = if n == 0 { 0 } else { 7 * (2 * n - 1) };
        let calls = [(words, 4, none), (words, 3, none), (words + 7, 3, none), (words, 4, Room::needed(n)), (words, 3, Room::needed(n))];
        for (nodes, limit, room) in calls {
            let side = side_room(n).min(MOST_SIDE);
            for (side, spans) in [(side, 2), (side, 0), (side.saturating_sub(1), 3)] {
                let tree = Tree { nodes: vec![0; nodes], indices: vec![0; n] };
                let plain = conversions::Call { tree, limit, room };
                add(Call { plain, side, panes: 1, spans: vec![0; spans] }, 0, [0, 0]);
            }
        }
    }
    let most = 70_000;
    for (other, span) in [(0, [1, 0]), (1, [0, 96]), (33_333, [1, 0]), (most - 1, [0, 255]), (most - 1, [95, 94]), (most - 1, [0, 95])] {
        let mut spans = vec![0; 2 * most];
        spans[2 * other..2 * other + 2].copy_from_slice(&span);
        add(Call::new(&Tree::default(), 3, &spans), other, span);
    }
    g
}

pub fn groups(seed: u64) -> Vec<Group> {
    let mut rng = Rng::new(seed);
    let rng = &mut rng;
    let accepted = accepted(rng, 110);
    let mut refused = refused(rng, 2);
    few_refused(&mut refused);
    vec![accepted, refused, sizes()]
}
