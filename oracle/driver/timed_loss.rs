//! A ray's loss and the report of many rays at their quarters: what they are asked of, and their answers by the rules and by the
//! published any-hit, whose list loses what is out of its hours.
use crate::loss::{Call, RayLoss, Report, Reported, two_words};
use crate::rng::Rng;
use crate::spans::{LAST, all_day, always_open, side_table, some_quarter, span_at};
use crate::store::words_of;
use crate::timed::{self, Lists};
use crate::walk::Answer;

/// What a timed report is asked of: what an untimed one is, a side table, spans, and a quarter for each ray. The single call is asked
/// of the same, but for one ray and its quarter, and no words for totals.
#[derive(Clone)]
pub struct TimedCall {
    pub plain: Call,
    pub side: Vec<u8>,
    pub spans: Vec<u8>,
    pub quarters: Vec<u8>,
}

impl TimedCall {
    /// With the side table that a conversion of these spans writes, and a quarter for each ray, mostly about an end of a span.
    pub fn converted(rng: &mut Rng, plain: Call, spans: Vec<u8>) -> TimedCall {
        let side = side_table(&plain.record, &plain.list, &spans);
        let quarters = (0..plain.count()).map(|_| some_quarter(rng, &spans)).collect();
        TimedCall { plain, side, spans, quarters }
    }

    /// All day, with any quarters.
    pub fn all_day(rng: &mut Rng, plain: Call) -> TimedCall {
        let (side, spans) = (always_open(&plain.record), all_day(plain.panes));
        let quarters = (0..plain.count()).map(|_| rng.below(LAST as usize + 1) as u8).collect();
        TimedCall { plain, side, spans, quarters }
    }

    pub fn lists(&self) -> Lists<'_> {
        let Call { record, list, panes, .. } = &self.plain;
        Lists { record, side: &self.side, list, panes: *panes, spans: &self.spans }
    }

    /// The quarter of ray k; 0 where it has none.
    fn quarter(&self, k: usize) -> u8 {
        self.quarters.get(k).copied().unwrap_or(0)
    }

    /// The first of causes 1, 2, 4, 12, 14 and 9 of a report, or 0.
    fn report_cause(&self) -> u32 {
        if self.quarters.len() != self.plain.count() {
            return 1;
        }
        match self.plain.report_lists() {
            0 if !self.lists().timely() || self.quarters.iter().any(|&quarter| quarter > LAST) => 14,
            0 => self.plain.ray_cause(),
            number => number,
        }
    }

    /// The first of causes 1, 2, 12, 14 and 9 of the single call for ray k, or 0.
    fn loss_cause(&self, k: usize) -> u32 {
        match self.plain.loss_lists() {
            0 => self.lists().ray_cause(&self.plain.ray(k), self.quarter(k)),
            number => number,
        }
    }

    fn walk(&self, k: usize) -> timed::TimedWalk<'_> {
        timed::begun(self.lists(), &self.plain.ray(k), self.quarter(k))
    }
}

impl Reported for TimedCall {
    fn plain(&self) -> &Call {
        &self.plain
    }

    fn report(&self) -> Report {
        match self.report_cause() {
            0 => self.plain.reported(|k| self.walk(k)),
            refusal => Report { refusal, ..Default::default() },
        }
    }

    fn loss(&self, k: usize) -> RayLoss {
        match self.loss_cause(k) {
            0 => self.plain.lost(self.walk(k)),
            refusal => RayLoss { refusal, ..Default::default() },
        }
    }

    /// In its hours, which must be what the rules list.
    fn any_hit(&self, k: usize) -> Answer {
        let (ray, quarter) = (self.plain.ray(k), self.quarter(k));
        let ours = timed::any_hit(self.lists(), &ray, quarter, usize::MAX);
        let mut theirs = self.plain.any_hit(k);
        theirs.found.retain(|&p| span_at(&self.spans, self.plain.list[p as usize] as usize).holds(quarter));
        assert_eq!(ours.found, theirs.found);
        assert!(self.spans != all_day(self.plain.panes) || ours == theirs);
        ours
    }

    /// Bytes of the record and of the side table, index words, panes in two words, bytes of the spans, losses, floats of rays, quarters,
    /// words lent for the totals of rays, and of panes; the report's number, and its tests in two words; record, side table, index
    /// words, spans, losses, floats of rays, quarters; and the words of `answers`.
    fn case(&self) -> Vec<u32> {
        let (r, c) = (self.report(), &self.plain);
        let mut w = vec![c.record.len() as u32, self.side.len() as u32, c.list.len() as u32];
        w.extend(two_words(c.panes as u64));
        let sizes = [self.spans.len(), c.losses.len(), c.rays.len(), self.quarters.len(), c.ray_room, c.pane_room];
        w.extend(sizes.map(|x| x as u32));
        w.push(r.refusal);
        w.extend(two_words(r.tests));
        [&c.record, &self.side].iter().for_each(|bytes| w.extend(words_of(bytes)));
        w.extend([&c.list[..], &words_of(&self.spans), &c.losses, &c.rays, &words_of(&self.quarters)].concat());
        w.extend(self.answers(&r));
        w
    }
}
