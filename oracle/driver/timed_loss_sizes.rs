//! Stored timed losses by lengths: records, side tables, index words, spans, losses, rays and quarters at their largest lengths. Each
//! list has one word, span, ray or quarter all through, but for the span of one pane, so that neither the lists nor the totals need be
//! stored.
use crate::accept::MOST_LEAVES;
use crate::loss::{MOST_RAYS, Reported, two_words};
use crate::loss_sizes::{Alike, MOST_BYTES, Resizable, pairs, records};
use crate::spans::{LAST, SIDE};
use crate::store::*;
use crate::timed_loss::TimedCall;

/// The words of a case.
const WIDTH: usize = 62;

#[derive(Clone)]
struct TimedAlike {
    plain: Alike,
    /// The side table of the first node; all else of it is zero.
    slots: Vec<u8>,
    side: usize,
    spans: usize,
    quarters: usize,
    span: [u8; 2],
    /// A pane whose span is another.
    other: usize,
    other_span: [u8; 2],
    quarter: u8,
}

impl Resizable for TimedAlike {
    /// Spans and slots are to quarter 50, and it is that quarter.
    fn of(rays: usize) -> TimedAlike {
        TimedAlike {
            plain: Alike::of(rays),
            slots: [&[0, 50, 0, 50][..], &[0; 12]].concat(),
            side: SIDE,
            spans: 4,
            quarters: rays,
            span: [0, 50],
            other: 0,
            other_span: [0, 50],
            quarter: 50,
        }
    }

    fn plain(&mut self) -> &mut Alike {
        &mut self.plain
    }

    /// With its side table.
    fn with_record(self, bytes: usize) -> TimedAlike {
        TimedAlike { plain: self.plain.with_record(bytes), side: SIDE * (bytes / 80), ..self }
    }

    fn with_cause(mut self, cause: u32, way: usize) -> TimedAlike {
        match (cause, way) {
            (1, 2) => self.quarters += 1,
            (14, 0) => self.spans = 3,
            (14, 1) => self.span = [51, 50],
            (14, 2) => self.side += 1,
            (14, _) => self.quarter = LAST + 1,
            _ => self.plain = self.plain.with_cause(cause, way),
        }
        self
    }

    fn number(&self) -> u32 {
        self.call().report().refusal
    }
}

impl TimedAlike {
    /// So many panes, each with its loss and its span; index words name the last.
    fn with_panes(self, panes: usize) -> TimedAlike {
        TimedAlike { plain: self.plain.with_panes(panes), spans: 2 * panes, ..self }
    }

    fn call(&self) -> TimedCall {
        let mut side = self.slots.clone();
        side.resize(self.side, 0);
        let mut spans: Vec<u8> = self.span.into_iter().cycle().take(self.spans).collect();
        let other = spans.iter_mut().skip(2 * self.other).zip(self.other_span);
        other.for_each(|(byte, x)| *byte = x);
        TimedCall { plain: self.plain.call(), side, spans, quarters: vec![self.quarter; self.quarters] }
    }

    /// Bytes of the record and of the side table, index words, panes in two words, bytes of the spans, losses, floats of rays, quarters,
    /// words lent for the totals of rays, and of panes; the index word, the loss, the pane that has another span; two words each, the
    /// span and that one; the quarter; the words that an untimed case ends with; the first node's side table.
    fn case(&self) -> Vec<u32> {
        let (call, a) = (self.call(), &self.plain);
        let mut w = vec![a.bytes as u32, self.side as u32, a.positions as u32];
        w.extend(two_words(a.panes as u64));
        let sizes = [self.spans, a.losses, a.floats, self.quarters, a.ray_room, a.pane_room];
        w.extend(sizes.map(|x| x as u32));
        w.extend([a.index, a.loss, self.other as u32]);
        w.extend([&self.span[..], &self.other_span, &[self.quarter]].concat().iter().map(|&x| x as u32));
        let r = call.report();
        w.extend(a.answers(&r, TimedCall { quarters: vec![self.quarter], ..call }.loss(0)));
        w.extend(words_of(&self.slots));
        w
    }
}

/// The largest record with a side table of a byte less, and of a node more.
fn other_sides(a: &TimedAlike) -> Vec<TimedAlike> {
    [a.side - 1, a.side + SIDE].map(|side| TimedAlike { side, ..a.clone() }).to_vec()
}

/// Lists of rays, with quarters and words for their totals that are just enough, one less, or more.
fn rays() -> Vec<TimedAlike> {
    let mut all = vec![];
    for rays in [MOST_RAYS - 1, MOST_RAYS, MOST_RAYS + 1] {
        let right = TimedAlike::of(rays);
        all.push(TimedAlike { quarters: rays - 1, ..right.clone() });
        all.push(TimedAlike { quarters: rays + 1, ..right.clone() });
        all.push(TimedAlike { quarter: LAST + 1, ..right.clone() });
        all.push(right.clone().but(|a| a.ray_room = rays - 1));
        all.push(TimedAlike { quarter: 51, ..right.clone() });
        all.push(right);
    }
    all
}

/// Panes: there may be more than positions; one of them has no span that fits, or all have, or the list is a byte or a pane off.
fn panes() -> Vec<TimedAlike> {
    let most = MOST_LEAVES + 1;
    let many = TimedAlike::of(2).with_panes(most);
    let mut all = vec![many.clone().but(|a| a.index = most as u32), TimedAlike { quarter: 51, ..many.clone() }];
    for spans in [0, 2 * most - 2, 2 * most - 1, 2 * most + 1, 2 * most + 2] {
        all.push(TimedAlike { spans, ..many.clone() });
    }
    for other in [0, 1, 7, 8, 15, 16, 31, 32, 40_000, most - 17, most - 2, most - 1] {
        for other_span in [[1, 0], [0, LAST + 1], [255, 255], [LAST, LAST]] {
            all.push(TimedAlike { other, other_span, ..many.clone() });
        }
    }
    all.push(TimedAlike { span: [51, 50], ..many.clone() });
    all.push(TimedAlike { spans: 0, ..many.clone() }.but(|a| a.panes = 1 << 63));
    all.push(many);
    all
}

pub fn group() -> Group {
    let mut g = Group::new(TIMED_LOSS_SIZES, WIDTH);
    let bytes = [0, 79, 80, MOST_BYTES - 1, MOST_BYTES, MOST_BYTES + 80];
    let largest = records(&[0, 2, MOST_LEAVES, MOST_LEAVES + 1], &bytes, other_sides);
    let ways = [(1, 0), (1, 2), (4, 0), (12, 0), (14, 0), (14, 1), (14, 2), (14, 3), (9, 0), (10, 1)];
    [largest, rays(), panes(), pairs(&ways)].concat().iter().for_each(|a| g.add(a.case()));
    g
}
