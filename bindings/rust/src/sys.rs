//! The archive's functions, as `include/funnelcress.h` declares them: a slice goes as a pointer and a length.
#![allow(missing_docs)]

unsafe extern "C" {
    pub fn funnelcress_half_areas(boxes: *const f32, boxes_len: usize, out: *mut f32, out_len: usize) -> u32;
    pub fn funnelcress_entry_distances(
        boxes: *const f32,
        boxes_len: usize,
        ray: *const f32,
        ray_len: usize,
        out: *mut f32,
        out_len: usize,
    ) -> u32;
    pub fn funnelcress_validate(record: *const u8, record_len: usize, n: usize, work: *mut u32, work_len: usize)
    -> u64;
    pub fn funnelcress_bvh2_to_cwbvh(
        words: *const u32,
        words_len: usize,
        indices: *const u32,
        indices_len: usize,
        limit: u32,
        order: u32,
        decisions: *mut u32,
        decisions_len: usize,
        costs: *mut f32,
        costs_len: usize,
        record: *mut u8,
        record_len: usize,
        list: *mut u32,
        list_len: usize,
    ) -> u64;
    pub fn funnelcress_bvh2_to_cwbvh_timed(
        words: *const u32,
        words_len: usize,
        indices: *const u32,
        indices_len: usize,
        limit: u32,
        order: u32,
        panes: usize,
        spans: *const u8,
        spans_len: usize,
        decisions: *mut u32,
        decisions_len: usize,
        costs: *mut f32,
        costs_len: usize,
        record: *mut u8,
        record_len: usize,
        list: *mut u32,
        list_len: usize,
        side: *mut u8,
        side_len: usize,
    ) -> u64;
    pub fn funnelcress_any_hit(
        record: *const u8,
        record_len: usize,
        n: usize,
        ray: *const f32,
        ray_len: usize,
        list: *mut u32,
        list_len: usize,
    ) -> u64;
    pub fn funnelcress_closest(
        record: *const u8,
        record_len: usize,
        indices: *const u32,
        indices_len: usize,
        panes: *const f32,
        panes_len: usize,
        ray: *const f32,
        ray_len: usize,
        out: *mut f32,
        out_len: usize,
    ) -> u64;
    pub fn funnelcress_miss(
        record: *const u8,
        record_len: usize,
        indices: *const u32,
        indices_len: usize,
        panes: *const f32,
        panes_len: usize,
        ray: *const f32,
        ray_len: usize,
    ) -> u64;
    pub fn funnelcress_report(
        record: *const u8,
        record_len: usize,
        indices: *const u32,
        indices_len: usize,
        panes: usize,
        losses: *const u32,
        losses_len: usize,
        rays: *const f32,
        rays_len: usize,
        ray_totals: *mut u64,
        ray_totals_len: usize,
        pane_totals: *mut u64,
        pane_totals_len: usize,
    ) -> u64;
    pub fn funnelcress_report_timed(
        record: *const u8,
        record_len: usize,
        side: *const u8,
        side_len: usize,
        indices: *const u32,
        indices_len: usize,
        panes: usize,
        spans: *const u8,
        spans_len: usize,
        losses: *const u32,
        losses_len: usize,
        rays: *const f32,
        rays_len: usize,
        quarters: *const u8,
        quarters_len: usize,
        ray_totals: *mut u64,
        ray_totals_len: usize,
        pane_totals: *mut u64,
        pane_totals_len: usize,
    ) -> u64;
    pub fn funnelcress_join(
        first: *const u32,
        first_len: usize,
        first_indices: *const u32,
        first_indices_len: usize,
        first_panes: usize,
        second: *const u32,
        second_len: usize,
        second_indices: *const u32,
        second_indices_len: usize,
        marks: *mut u32,
        marks_len: usize,
        words: *mut u32,
        words_len: usize,
        indices: *mut u32,
        indices_len: usize,
    ) -> u64;
    pub fn funnelcress_begin(ray: *const f32, ray_len: usize, head: *mut u64, stack: *mut u64) -> u64;
    pub fn funnelcress_step(head: *mut u64, stack: *mut u64, record: *const u8, record_len: usize, n: usize) -> u64;
    pub fn funnelcress_tell(head: *mut u64, stack: *mut u64, distance: f32);
}

/// A returned number: the node tests in bits 63 to 48, the kind of answer in 47 to 32, what it holds in the low 32.
#[derive(Clone, Copy)]
pub struct Number(pub u64);

/// The kind of every refusal.
pub const REFUSED: u16 = 2;

impl Number {
    /// The node tests of a query.
    pub fn tests(self) -> u32 {
        (self.0 >> 48) as u32
    }

    /// The kind of answer.
    pub fn kind(self) -> u16 {
        (self.0 >> 32) as u16
    }

    /// What the answer holds; of a report the node tests, of a join the leaves.
    pub fn held(self) -> u32 {
        self.0 as u32
    }
}
