//! What `compare` runs at quarter hours: side tables in two ways, and timed queries, walks and reports by the rules and by the published
//! code.
use crate::calls::told;
use crate::convert::Converted;
use crate::loss::{Call, Reported};
use crate::queries::{aimed, scene};
use crate::record::node;
use crate::rng::Rng;
use crate::spans::{SIDE, odd_side, some_quarter, some_spans, span_at};
use crate::timed_loss::TimedCall;
use crate::timed_queries::{Seen, far_reaching};
use crate::timed_scene::TimedScene;
use crate::timed_steps::agreed_steps;
use crate::tree::Tree;
use obvhs::ray::Ray;

/// What was compared, drawn apart from the rest: side tables and the spans in them that are not empty, rays at quarters, over other side
/// tables, and all day; reports, their rays, and how many of these lose something.
pub struct AtQuarters {
    rng: Rng,
    tables: u32,
    slots: u64,
    timed: Seen,
    odd: Seen,
    all_day: Seen,
    reports: u32,
    rays: usize,
    losing: usize,
}

/// A node and its slot.
type Slot = (usize, usize);

/// For each node the slot that holds it, and for each position the slot of its leaf.
fn holders(record: &[u8], n: usize) -> (Vec<Option<Slot>>, Vec<Option<Slot>>) {
    let (mut nodes, mut positions) = (vec![None; record.len() / 80], vec![None; n]);
    for i in 0..nodes.len() {
        let d = node(record, i);
        let mut child = d.child_base() as usize;
        for slot in (0..8).filter(|&slot| d.meta(slot) != 0) {
            if d.is_leaf_slot(slot) {
                let (first, count) = d.leaf_range(slot);
                (first..first + count).for_each(|p| positions[p as usize] = Some((i, slot)));
            } else {
                nodes[child] = Some((i, slot));
                child += 1;
            }
        }
    }
    (nodes, positions)
}

/// A side table made from below: the span of each position widens those of all slots above it.
fn widened(record: &[u8], list: &[u32], spans: &[u8]) -> Vec<u8> {
    let mut side: Vec<Option<[u8; 2]>> = vec![None; SIDE / 2 * (record.len() / 80)];
    let (nodes, positions) = holders(record, list.len());
    for (p, mut at) in positions.into_iter().enumerate() {
        let own = span_at(spans, list[p] as usize);
        while let Some((i, slot)) = at {
            let [first, last] = side[8 * i + slot].unwrap_or([own.first, own.last]);
            side[8 * i + slot] = Some([first.min(own.first), last.max(own.last)]);
            at = nodes[i];
        }
    }
    side.into_iter().flat_map(|two| two.unwrap_or([0, 0])).collect()
}

impl AtQuarters {
    /// Nothing compared as yet.
    pub fn new(seed: u64) -> AtQuarters {
        let [timed, odd, all_day] = [(); 3].map(|_| Seen::default());
        AtQuarters { rng: Rng::new(seed), tables: 0, slots: 0, timed, odd, all_day, reports: 0, rays: 0, losing: 0 }
    }

    /// A tree's record with spans of its panes, all day, and with some other side table: some rays over each; and a report.
    pub fn compare(&mut self, t: &Tree, c: &Converted) {
        let rng = &mut self.rng;
        let plain = scene(rng, t, c);
        let spans = some_spans(rng, plain.panes.len() / 6);
        let s = TimedScene::converted(plain.clone(), spans.clone());
        assert_eq!(s.side, widened(&c.record, &c.list, &spans));
        self.tables += 1;
        self.slots += s.side.chunks(2).filter(|two| *two != [0, 0]).count() as u64;
        let day = TimedScene::all_day(plain);
        let odd = TimedScene { side: odd_side(rng, &s.side), ..s.clone() };
        let mut rays = vec![];
        for k in 0..8 {
            let r = if k % 2 == 0 { aimed(rng, t, &c.record) } else { far_reaching(rng, t, &c.record, 3) };
            let (told, quarter) = (told(rng, &r), some_quarter(rng, &spans));
            for (seen, s) in [(&mut self.timed, &s), (&mut self.all_day, &day)] {
                seen.note(s, &r, &s.agreed(&r, quarter).any);
                agreed_steps(s, &r, quarter, &told);
            }
            self.odd.note(&odd, &r, &odd.defined(&r, quarter).any);
            rays.push(r);
        }
        self.report(c, &rays);
    }

    /// A report of these rays, at quarters or all day.
    fn report(&mut self, c: &Converted, rays: &[Ray]) {
        let rng = &mut self.rng;
        let plain = Call::new(rng, &c.record, &c.list, rays);
        let spans = some_spans(rng, plain.panes);
        let call = if rng.once_in(4) { TimedCall::all_day(rng, plain) } else { TimedCall::converted(rng, plain, spans) };
        let r = call.agreed();
        self.reports += 1;
        self.rays += rays.len();
        self.losing += r.rays.iter().filter(|&&sum| sum > 0).count();
    }

    /// The lines of what was compared.
    pub fn print(&self) {
        let AtQuarters { tables, slots, timed, odd, all_day, reports, rays, losing, .. } = self;
        println!("side tables: {tables} with {slots} spans that are not empty, the same from above and from below");
        println!("at quarters, as the published code in its hours: {timed}");
        println!("all day, as the published code: {all_day}");
        println!("over other side tables, as listed by definition: {odd}");
        println!("timed reports: {reports} of {rays} rays, of which {losing} lose something");
    }
}
