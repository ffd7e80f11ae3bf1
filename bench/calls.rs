//! The library's functions, and those of the crate `measured`, as Rust calls them: a slice goes as a pointer and a length.

unsafe extern "C" {
    fn funnelcress_half_areas(boxes: *const f32, boxes_len: usize, out: *mut f32, out_len: usize) -> u32;
    fn funnelcress_entry_distances(
        boxes: *const f32,
        boxes_len: usize,
        ray: *const f32,
        ray_len: usize,
        out: *mut f32,
        out_len: usize,
    ) -> u32;
    fn funnelcress_validate(record: *const u8, record_len: usize, n: usize, work: *mut u32, work_len: usize) -> u64;
    fn funnelcress_bvh2_to_cwbvh(
        words: *const u32,
        words_len: usize,
        indices: *const u32,
        indices_len: usize,
        limit: u32,
        order: u32,
        decisions: *mut u32,
        decisions_len: usize,
        costs: *mut f32,
        costs_len: usize,
        record: *mut u8,
        record_len: usize,
        list: *mut u32,
        list_len: usize,
    ) -> u64;
    fn funnelcress_join(
        first: *const u32,
        first_len: usize,
        first_indices: *const u32,
        first_indices_len: usize,
        first_panes: usize,
        second: *const u32,
        second_len: usize,
        second_indices: *const u32,
        second_indices_len: usize,
        marks: *mut u32,
        marks_len: usize,
        words: *mut u32,
        words_len: usize,
        indices: *mut u32,
        indices_len: usize,
    ) -> u64;
    fn funnelcress_any_hit(
        record: *const u8,
        record_len: usize,
        n: usize,
        ray: *const f32,
        ray_len: usize,
        list: *mut u32,
        list_len: usize,
    ) -> u64;
    fn funnelcress_closest(
        record: *const u8,
        record_len: usize,
        indices: *const u32,
        indices_len: usize,
        panes: *const f32,
        panes_len: usize,
        ray: *const f32,
        ray_len: usize,
        out: *mut f32,
        out_len: usize,
    ) -> u64;
    fn funnelcress_report(
        record: *const u8,
        record_len: usize,
        indices: *const u32,
        indices_len: usize,
        panes: usize,
        losses: *const u32,
        losses_len: usize,
        rays: *const f32,
        rays_len: usize,
        ray_totals: *mut u64,
        ray_totals_len: usize,
        pane_totals: *mut u64,
        pane_totals_len: usize,
    ) -> u64;
    fn funnelcress_miss(
        record: *const u8,
        record_len: usize,
        indices: *const u32,
        indices_len: usize,
        panes: *const f32,
        panes_len: usize,
        ray: *const f32,
        ray_len: usize,
    ) -> u64;
    fn funnelcress_begin(ray: *const f32, ray_len: usize, head: *mut u64, stack: *mut u64) -> u64;
    fn funnelcress_step(head: *mut u64, stack: *mut u64, record: *const u8, record_len: usize, n: usize) -> u64;
    fn measured_steps(record: *const u8, record_len: usize, n: usize, ray: *const f32, ray_len: usize) -> u64;
    fn measured_hit_masks(
        record: *const u8,
        record_len: usize,
        ray: *const f32,
        ray_len: usize,
        out: *mut u32,
        out_len: usize,
    ) -> usize;
    fn measured_rules(record: *const u8, record_len: usize, n: usize) -> usize;
    fn measured_orders(
        words: *const u32,
        words_len: usize,
        cases: *const u32,
        cases_len: usize,
        out: *mut u32,
        out_len: usize,
    ) -> usize;
    fn measured_accept(words: *const u32, words_len: usize, n: usize, marks: *mut u32, marks_len: usize) -> u32;
    fn measured_costs(
        words: *const u32,
        words_len: usize,
        limit: u32,
        decisions: *mut u32,
        decisions_len: usize,
        costs: *mut f32,
        costs_len: usize,
    ) -> u32;
}

pub fn half_areas(boxes: &[f32], out: &mut [f32]) -> u32 {
    unsafe { funnelcress_half_areas(boxes.as_ptr(), boxes.len(), out.as_mut_ptr(), out.len()) }
}

pub fn entry_distances(boxes: &[f32], ray: &[f32], out: &mut [f32]) -> u32 {
    unsafe {
        funnelcress_entry_distances(boxes.as_ptr(), boxes.len(), ray.as_ptr(), ray.len(), out.as_mut_ptr(), out.len())
    }
}

pub fn validate(record: &[u8], n: usize, work: &mut [u32]) -> u64 {
    unsafe { funnelcress_validate(record.as_ptr(), record.len(), n, work.as_mut_ptr(), work.len()) }
}

/// What conversion is lent: the tables of a tree's decisions and costs, a record and its index list.
pub struct Slices {
    pub decisions: Vec<u32>,
    pub costs: Vec<f32>,
    pub record: Vec<u8>,
    pub list: Vec<u32>,
}

pub fn bvh2_to_cwbvh(words: &[u32], indices: &[u32], limit: u32, order: bool, s: &mut Slices) -> u64 {
    unsafe {
        funnelcress_bvh2_to_cwbvh(
            words.as_ptr(),
            words.len(),
            indices.as_ptr(),
            indices.len(),
            limit,
            order as u32,
            s.decisions.as_mut_ptr(),
            s.decisions.len(),
            s.costs.as_mut_ptr(),
            s.costs.len(),
            s.record.as_mut_ptr(),
            s.record.len(),
            s.list.as_mut_ptr(),
            s.list.len(),
        )
    }
}

/// What a join is lent: marks, and the joined tree's words and index words.
pub struct Joined {
    pub marks: Vec<u32>,
    pub words: Vec<u32>,
    pub indices: Vec<u32>,
}

pub fn join(first: &[u32], first_indices: &[u32], panes: usize, second: &[u32], second_indices: &[u32], s: &mut Joined) -> u64 {
    unsafe {
        funnelcress_join(
            first.as_ptr(),
            first.len(),
            first_indices.as_ptr(),
            first_indices.len(),
            panes,
            second.as_ptr(),
            second.len(),
            second_indices.as_ptr(),
            second_indices.len(),
            s.marks.as_mut_ptr(),
            s.marks.len(),
            s.words.as_mut_ptr(),
            s.words.len(),
            s.indices.as_mut_ptr(),
            s.indices.len(),
        )
    }
}

/// A query's number: the node tests, the kind of answer, and what it holds.
#[inline(always)]
fn parts(x: u64) -> (u32, u32, u32) {
    ((x >> 48) as u32, (x >> 32) as u32 & 0xffff, x as u32)
}

/// How many positions are listed, and after how many node tests.
#[inline(always)]
pub fn any_hit(record: &[u8], n: usize, ray: &[f32; 8], list: &mut [u32]) -> (u32, u32) {
    let x = unsafe { funnelcress_any_hit(record.as_ptr(), record.len(), n, ray.as_ptr(), 8, list.as_mut_ptr(), list.len()) };
    let (tests, kind, count) = parts(x);
    assert_eq!(kind, 0);
    (count, tests)
}

/// The node tests of all rays of a report over as many panes as losses.
#[inline(always)]
pub fn report(record: &[u8], indices: &[u32], losses: &[u32], rays: &[f32], ray_totals: &mut [u64], pane_totals: &mut [u64]) -> u64 {
    let x = unsafe {
        funnelcress_report(
            record.as_ptr(),
            record.len(),
            indices.as_ptr(),
            indices.len(),
            losses.len(),
            losses.as_ptr(),
            losses.len(),
            rays.as_ptr(),
            rays.len(),
            ray_totals.as_mut_ptr(),
            ray_totals.len(),
            pane_totals.as_mut_ptr(),
            pane_totals.len(),
        )
    };
    assert!(x < 1 << 32);
    x
}

/// Position and distance, and the node tests.
#[inline(always)]
pub fn closest(record: &[u8], indices: &[u32], panes: &[f32], ray: &[f32; 8]) -> (Option<(u32, f32)>, u32) {
    let mut out = [0f32];
    let x = unsafe {
        funnelcress_closest(
            record.as_ptr(),
            record.len(),
            indices.as_ptr(),
            indices.len(),
            panes.as_ptr(),
            panes.len(),
            ray.as_ptr(),
            8,
            out.as_mut_ptr(),
            1,
        )
    };
    let (tests, kind, position) = parts(x);
    assert!(kind < 2);
    ((kind == 0).then_some((position, out[0])), tests)
}

/// Whether nothing is nearer than the reach, and the node tests.
#[inline(always)]
pub fn miss(record: &[u8], indices: &[u32], panes: &[f32], ray: &[f32; 8]) -> (bool, u32) {
    let x = unsafe {
        funnelcress_miss(
            record.as_ptr(),
            record.len(),
            indices.as_ptr(),
            indices.len(),
            panes.as_ptr(),
            panes.len(),
            ray.as_ptr(),
            8,
        )
    };
    let (tests, kind, _) = parts(x);
    assert!(kind < 2);
    (kind == 0, tests)
}

/// How many positions a walker reports, stepped to its end, and the node tests.
#[inline(always)]
pub fn steps(record: &[u8], n: usize, ray: &[f32; 8]) -> (u32, u32) {
    let x = unsafe { measured_steps(record.as_ptr(), record.len(), n, ray.as_ptr(), 8) };
    assert_ne!(x, u64::MAX);
    ((x >> 32) as u32, x as u32)
}

/// The same of a walker kept in lent words, a call for each step.
#[inline(always)]
pub fn lent_steps(record: &[u8], n: usize, ray: &[f32; 8]) -> (u32, u32) {
    let (mut head, mut stack) = ([0u64; 18], [0u64; 32]);
    assert_eq!(unsafe { funnelcress_begin(ray.as_ptr(), 8, head.as_mut_ptr(), stack.as_mut_ptr()) }, 0);
    let (mut reports, mut tests) = (0, 0);
    loop {
        let x = unsafe { funnelcress_step(head.as_mut_ptr(), stack.as_mut_ptr(), record.as_ptr(), record.len(), n) };
        match x >> 32 {
            0 => tests += 1,
            1 => reports += 1,
            kind => {
                assert_eq!(kind, 3);
                return (reports, tests);
            }
        }
    }
}

pub fn hit_masks(record: &[u8], ray: &[f32], out: &mut [u32]) -> usize {
    unsafe { measured_hit_masks(record.as_ptr(), record.len(), ray.as_ptr(), ray.len(), out.as_mut_ptr(), out.len()) }
}

pub fn rules(record: &[u8], n: usize) -> usize {
    unsafe { measured_rules(record.as_ptr(), record.len(), n) }
}

pub fn orders(words: &[u32], cases: &[u32], out: &mut [u32]) -> usize {
    unsafe { measured_orders(words.as_ptr(), words.len(), cases.as_ptr(), cases.len(), out.as_mut_ptr(), out.len()) }
}

pub fn accept(words: &[u32], n: usize, marks: &mut [u32]) -> u32 {
    unsafe { measured_accept(words.as_ptr(), words.len(), n, marks.as_mut_ptr(), marks.len()) }
}

/// Only for words of an accepted tree, with tables as long as they are.
pub fn costs(words: &[u32], limit: u32, decisions: &mut [u32], costs: &mut [f32]) -> u32 {
    unsafe {
        measured_costs(
            words.as_ptr(),
            words.len(),
            limit,
            decisions.as_mut_ptr(),
            decisions.len(),
            costs.as_mut_ptr(),
            costs.len(),
        )
    }
}
