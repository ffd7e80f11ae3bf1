//! The library's functions at a quarter hour, as Rust calls them: see `calls.rs`.
use crate::calls::Slices;

/// The quarter hour of every ray.
pub const QUARTER: u8 = 40;

/// What a walk at a quarter hour reads beside a record and its index list: a side table, and the spans of panes.
pub struct Day {
    pub side: Vec<u8>,
    pub spans: Vec<u8>,
}

/// A record with its index list, and its day.
#[derive(Clone, Copy)]
pub struct Lists<'a> {
    pub record: &'a [u8],
    pub list: &'a [u32],
    pub day: &'a Day,
}

unsafe extern "C" {
    fn measured_hours(
        record: *const u8,
        record_len: usize,
        side: *const u8,
        side_len: usize,
        indices: *const u32,
        indices_len: usize,
        panes: usize,
        spans: *const u8,
        spans_len: usize,
        quarter: u8,
    ) -> bool;
    fn measured_any_hit_timed(
        record: *const u8,
        record_len: usize,
        side: *const u8,
        side_len: usize,
        indices: *const u32,
        indices_len: usize,
        panes: usize,
        spans: *const u8,
        spans_len: usize,
        ray: *const f32,
        ray_len: usize,
        quarter: u8,
        list: *mut u32,
        list_len: usize,
    ) -> u64;
    fn measured_closest_timed(
        record: *const u8,
        record_len: usize,
        side: *const u8,
        side_len: usize,
        indices: *const u32,
        indices_len: usize,
        panes: *const f32,
        panes_len: usize,
        spans: *const u8,
        spans_len: usize,
        ray: *const f32,
        ray_len: usize,
        quarter: u8,
        out: *mut f32,
        out_len: usize,
    ) -> u64;
    fn measured_miss_timed(
        record: *const u8,
        record_len: usize,
        side: *const u8,
        side_len: usize,
        indices: *const u32,
        indices_len: usize,
        panes: *const f32,
        panes_len: usize,
        spans: *const u8,
        spans_len: usize,
        ray: *const f32,
        ray_len: usize,
        quarter: u8,
    ) -> u64;
    fn funnelcress_report_timed(
        record: *const u8,
        record_len: usize,
        side: *const u8,
        side_len: usize,
        indices: *const u32,
        indices_len: usize,
        panes: usize,
        spans: *const u8,
        spans_len: usize,
        losses: *const u32,
        losses_len: usize,
        rays: *const f32,
        rays_len: usize,
        quarters: *const u8,
        quarters_len: usize,
        ray_totals: *mut u64,
        ray_totals_len: usize,
        pane_totals: *mut u64,
        pane_totals_len: usize,
    ) -> u64;
    fn funnelcress_bvh2_to_cwbvh_timed(
        words: *const u32,
        words_len: usize,
        indices: *const u32,
        indices_len: usize,
        limit: u32,
        order: u32,
        panes: usize,
        spans: *const u8,
        spans_len: usize,
        decisions: *mut u32,
        decisions_len: usize,
        costs: *mut f32,
        costs_len: usize,
        record: *mut u8,
        record_len: usize,
        list: *mut u32,
        list_len: usize,
        side: *mut u8,
        side_len: usize,
    ) -> u64;
}

/// Whether spans, side table and quarter hour fit, as each timed call looks at them on entry.
#[inline(always)]
pub fn hours(l: Lists) -> bool {
    let Day { side, spans } = l.day;
    unsafe {
        measured_hours(
            l.record.as_ptr(),
            l.record.len(),
            side.as_ptr(),
            side.len(),
            l.list.as_ptr(),
            l.list.len(),
            spans.len() / 2,
            spans.as_ptr(),
            spans.len(),
            QUARTER,
        )
    }
}

/// A timed query's node tests, and what it holds.
#[inline(always)]
fn parts(x: u64) -> (u32, u32) {
    assert_ne!(x, u64::MAX);
    ((x >> 32) as u32, x as u32)
}

/// How many positions are listed, and after how many node tests.
#[inline(always)]
pub fn any_hit(l: Lists, ray: &[f32; 8], list: &mut [u32]) -> (u32, u32) {
    let Day { side, spans } = l.day;
    let x = unsafe {
        measured_any_hit_timed(
            l.record.as_ptr(),
            l.record.len(),
            side.as_ptr(),
            side.len(),
            l.list.as_ptr(),
            l.list.len(),
            spans.len() / 2,
            spans.as_ptr(),
            spans.len(),
            ray.as_ptr(),
            8,
            QUARTER,
            list.as_mut_ptr(),
            list.len(),
        )
    };
    let (tests, count) = parts(x);
    (count, tests)
}

/// Position and distance, and the node tests.
#[inline(always)]
pub fn closest(l: Lists, panes: &[f32], ray: &[f32; 8]) -> (Option<(u32, f32)>, u32) {
    let Day { side, spans } = l.day;
    let mut out = [0f32];
    let x = unsafe {
        measured_closest_timed(
            l.record.as_ptr(),
            l.record.len(),
            side.as_ptr(),
            side.len(),
            l.list.as_ptr(),
            l.list.len(),
            panes.as_ptr(),
            panes.len(),
            spans.as_ptr(),
            spans.len(),
            ray.as_ptr(),
            8,
            QUARTER,
            out.as_mut_ptr(),
            1,
        )
    };
    let (tests, position) = parts(x);
    ((position != u32::MAX).then_some((position, out[0])), tests)
}

/// Whether nothing is nearer than the reach, and the node tests.
#[inline(always)]
pub fn miss(l: Lists, panes: &[f32], ray: &[f32; 8]) -> (bool, u32) {
    let Day { side, spans } = l.day;
    let x = unsafe {
        measured_miss_timed(
            l.record.as_ptr(),
            l.record.len(),
            side.as_ptr(),
            side.len(),
            l.list.as_ptr(),
            l.list.len(),
            panes.as_ptr(),
            panes.len(),
            spans.as_ptr(),
            spans.len(),
            ray.as_ptr(),
            8,
            QUARTER,
        )
    };
    let (tests, blocked) = parts(x);
    (blocked == 0, tests)
}

/// The node tests of all rays of a report over as many panes as losses.
#[inline(always)]
pub fn report(l: Lists, losses: &[u32], rays: &[f32], quarters: &[u8], ray_totals: &mut [u64], pane_totals: &mut [u64]) -> u64 {
    let Day { side, spans } = l.day;
    let x = unsafe {
        funnelcress_report_timed(
            l.record.as_ptr(),
            l.record.len(),
            side.as_ptr(),
            side.len(),
            l.list.as_ptr(),
            l.list.len(),
            losses.len(),
            spans.as_ptr(),
            spans.len(),
            losses.as_ptr(),
            losses.len(),
            rays.as_ptr(),
            rays.len(),
            quarters.as_ptr(),
            quarters.len(),
            ray_totals.as_mut_ptr(),
            ray_totals.len(),
            pane_totals.as_mut_ptr(),
            pane_totals.len(),
        )
    };
    assert!(x < 1 << 32);
    x
}

/// The timed conversion, which is lent a side table too.
pub fn bvh2_to_cwbvh(
    words: &[u32],
    indices: &[u32],
    limit: u32,
    order: bool,
    spans: &[u8],
    s: &mut Slices,
    side: &mut [u8],
) -> u64 {
    unsafe {
        funnelcress_bvh2_to_cwbvh_timed(
            words.as_ptr(),
            words.len(),
            indices.as_ptr(),
            indices.len(),
            limit,
            order as u32,
            spans.len() / 2,
            spans.as_ptr(),
            spans.len(),
            s.decisions.as_mut_ptr(),
            s.decisions.len(),
            s.costs.as_mut_ptr(),
            s.costs.len(),
            s.record.as_mut_ptr(),
            s.record.len(),
            s.list.as_mut_ptr(),
            s.list.len(),
            side.as_mut_ptr(),
            side.len(),
        )
    }
}
