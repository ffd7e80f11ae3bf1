//! Screens by the hour: records with a side table, asked at quarter hours of the day.
use crate::answers::Report;
use crate::lengths::Lengths;
use crate::ray::Ray;
use crate::record::{Options, Record};
use crate::refusal::Refusal;
use crate::sys::{self, Number};
use crate::tree::Tree;

/// The first and the last quarter hour at which a pane is there, both included: 0 begins at midnight, 95 ends there. What is
/// there over midnight is two panes.
pub type Span = [u8; 2];

/// The last quarter hour of a day.
pub const LAST_QUARTER: u8 = 95;
/// The span of a pane that is always there.
pub const ALL_DAY: Span = [0, LAST_QUARTER];

/// A record with the side table beside it, 16 bytes a node: from byte 2i on slot i's first quarter hour, then its last, a span as
/// narrow as those of all panes below the slot allow. A walk at a quarter hour leaves alone what is not there.
///
/// ```
/// use funnelcress::{ALL_DAY, Options, Ray, Tree};
///
/// let panes = [[0.0, 0.0, 0.0, 1.0, 1.0, 1.0], [2.0, 0.0, 0.0, 3.0, 1.0, 1.0]];
/// let spans = [ALL_DAY, [40, 55]];
/// let timed = Tree::over(&panes).convert_timed(panes.len(), &spans, Options::default())?;
///
/// let ray = Ray::new([-1.0, 0.5, 0.5], [1.0, 0.0, 0.0]);
/// let report = timed.report(panes.len(), &spans, &[3000, 500], &[ray, ray], &[39, 40])?;
/// assert_eq!((report.rays, report.panes), (vec![3000, 3500], vec![6000, 500]));
/// # Ok::<(), funnelcress::Refusal>(())
/// ```
#[derive(Clone, Debug, PartialEq, Eq)]
pub struct TimedRecord {
    record: Record,
    side: Vec<u8>,
}

impl TimedRecord {
    /// A record and a side table kept before. Nothing is looked at here: a report refuses a table of another length, and reads
    /// any other as it is.
    pub fn from_parts(record: Record, side: Vec<u8>) -> TimedRecord {
        TimedRecord { record, side }
    }

    /// The record, which may be asked without quarter hours too.
    pub fn record(&self) -> &Record {
        &self.record
    }

    /// The record alone.
    pub fn into_record(self) -> Record {
        self.record
    }

    /// The side table's bytes, 16 a node.
    pub fn side(&self) -> &[u8] {
        &self.side
    }

    pub(crate) fn convert(
        tree: &Tree,
        panes: usize,
        spans: &[Span],
        limit: u32,
        order: u32,
    ) -> Result<TimedRecord, Refusal> {
        let needed = Lengths::of(tree.indices().len().min(crate::MAX_POSITIONS));
        let spans = spans.as_flattened();
        let mut decisions = vec![0u32; needed.tables];
        let mut costs = vec![0f32; needed.tables];
        let mut bytes = vec![0u8; needed.record];
        let mut list = vec![0u32; needed.list];
        let mut side = vec![0u8; needed.side];
        // SAFETY: each pointer is a slice's and has its length beside it, and no two slices overlap.
        let number = unsafe {
            sys::funnelcress_bvh2_to_cwbvh_timed(
                tree.words().as_ptr(),
                tree.words().len(),
                tree.indices().as_ptr(),
                tree.indices().len(),
                limit,
                order,
                panes,
                spans.as_ptr(),
                spans.len(),
                decisions.as_mut_ptr(),
                decisions.len(),
                costs.as_mut_ptr(),
                costs.len(),
                bytes.as_mut_ptr(),
                bytes.len(),
                list.as_mut_ptr(),
                list.len(),
                side.as_mut_ptr(),
                side.len(),
            )
        };
        let nodes = (Refusal::unless(Number(number))?.held() & 0xffff) as usize;
        bytes.truncate(nodes * crate::NODE_BYTES);
        side.truncate(nodes * crate::SIDE_BYTES);
        Ok(TimedRecord { record: Record::from_parts(bytes, list), side })
    }

    /// What [`Record::report`] says, where each ray has a quarter hour, one for each in `quarters`, and meets only panes whose spans
    /// hold it: `spans` has a span for each of so many panes.
    pub fn report(
        &self,
        panes: usize,
        spans: &[Span],
        losses: &[u32],
        rays: &[Ray],
        quarters: &[u8],
    ) -> Result<Report, Refusal> {
        let (bytes, list, spans) = (self.record.bytes(), self.record.indices(), spans.as_flattened());
        let floats: Vec<f32> = rays.iter().flat_map(Ray::to_floats).collect();
        let mut ray_totals = vec![0u64; rays.len().min(crate::MAX_RAYS)];
        let mut pane_totals = vec![0u64; panes.min(losses.len().max(crate::MAX_POSITIONS))];
        // SAFETY: each pointer is a slice's and has its length beside it, and the totals overlap no other slice.
        let number = unsafe {
            sys::funnelcress_report_timed(
                bytes.as_ptr(),
                bytes.len(),
                self.side.as_ptr(),
                self.side.len(),
                list.as_ptr(),
                list.len(),
                panes,
                spans.as_ptr(),
                spans.len(),
                losses.as_ptr(),
                losses.len(),
                floats.as_ptr(),
                floats.len(),
                quarters.as_ptr(),
                quarters.len(),
                ray_totals.as_mut_ptr(),
                ray_totals.len(),
                pane_totals.as_mut_ptr(),
                pane_totals.len(),
            )
        };
        let tests = Refusal::unless(Number(number))?.held().into();
        Ok(Report { rays: ray_totals, panes: pane_totals, tests })
    }
}

impl Tree {
    /// Converts the tree to a record with a side table: `spans` has a span for each of so many panes, which the index words name.
    pub fn convert_timed(&self, panes: usize, spans: &[Span], options: Options) -> Result<TimedRecord, Refusal> {
        self.convert_timed_by(panes, spans, options.limit, u32::from(options.ordered))
    }

    /// The same for any leaf limit and any order, 0 for off and 1 for on: others are refused.
    pub fn convert_timed_by(
        &self,
        panes: usize,
        spans: &[Span],
        limit: u32,
        order: u32,
    ) -> Result<TimedRecord, Refusal> {
        TimedRecord::convert(self, panes, spans, limit, order)
    }
}
