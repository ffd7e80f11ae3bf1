//! Whether what a call leaves as it was comes back bit for bit: NaNs with payloads, quiet and signalling, of either sign, in
//! lent floats, and guard words before and behind every lent slice. The contracts see one NaN and no memory past a slice.
#[allow(dead_code)]
#[path = "../oracle/driver/rng.rs"]
mod rng;
mod lent;

use lent::{Lent, byte, nan};
use rng::Rng;

// Floats go as their bits, so that nothing here touches a NaN.
unsafe extern "C" {
    fn funnelcress_half_areas(boxes: *const u32, boxes_len: usize, out: *mut u32, out_len: usize) -> u32;
    fn funnelcress_entry_distances(
        boxes: *const u32,
        boxes_len: usize,
        ray: *const u32,
        ray_len: usize,
        out: *mut u32,
        out_len: usize,
    ) -> u32;
    fn funnelcress_validate(record: *const u8, record_len: usize, n: usize, work: *mut u32, work_len: usize) -> u64;
    fn funnelcress_bvh2_to_cwbvh(
        words: *const u32,
        words_len: usize,
        indices: *const u32,
        indices_len: usize,
        limit: u32,
        order: u32,
        decisions: *mut u32,
        decisions_len: usize,
        costs: *mut u32,
        costs_len: usize,
        record: *mut u8,
        record_len: usize,
        list: *mut u32,
        list_len: usize,
    ) -> u64;
    fn funnelcress_bvh2_to_cwbvh_timed(
        words: *const u32,
        words_len: usize,
        indices: *const u32,
        indices_len: usize,
        limit: u32,
        order: u32,
        panes: usize,
        spans: *const u8,
        spans_len: usize,
        decisions: *mut u32,
        decisions_len: usize,
        costs: *mut u32,
        costs_len: usize,
        record: *mut u8,
        record_len: usize,
        list: *mut u32,
        list_len: usize,
        side: *mut u8,
        side_len: usize,
    ) -> u64;
}

/// The bits of the largest finite float.
const LARGEST: u32 = 0x7f7f_ffff;

/// A tree's words and its indices.
#[derive(Clone)]
struct Tree {
    words: Vec<u32>,
    indices: Vec<u32>,
}

impl Tree {
    fn n(&self) -> usize {
        self.indices.len()
    }

    fn nodes(&self) -> usize {
        (2 * self.n()).saturating_sub(1)
    }

    /// Elements of the four slices that it needs: decisions, costs, record, list.
    fn needs(&self) -> [usize; 4] {
        let bytes = if self.n() == 0 { 0 } else { 80 * (self.n() - 1).max(1) };
        [7 * self.nodes(), 7 * self.nodes(), bytes, self.n()]
    }

    fn with(&self, at: usize, word: u32) -> Tree {
        let mut t = self.clone();
        t.words[at] = word;
        t
    }
}

/// Inner node 2k has the children 2k + 1, leaf k, and 2k + 2; the last node is leaf n - 1. Box i of `boxes` is node i's.
fn chain(n: usize, boxes: impl Fn(usize) -> [f32; 6]) -> Tree {
    let mut words = vec![];
    for i in 0..(2 * n).saturating_sub(1) {
        let leaf = i % 2 == 1 || i == 2 * n - 2;
        words.extend(boxes(i).map(f32::to_bits));
        words.push(if leaf { 1 << 30 | (i / 2) as u32 } else { i as u32 + 1 });
    }
    Tree { words, indices: (0..n as u32).rev().collect() }
}

/// Inner node i has the children 2i + 1 and 2i + 2, and boxes are drawn.
fn heap(rng: &mut Rng, n: usize) -> Tree {
    let mut words = vec![];
    for i in 0..2 * n - 1 {
        let low: [f32; 3] = [0; 3].map(|_| rng.below(1000) as f32 / 8.0);
        words.extend(low.map(f32::to_bits));
        words.extend(low.map(|x| (x + rng.below(100) as f32).to_bits()));
        words.push(if i < n - 1 { 2 * i as u32 + 1 } else { 1 << 30 | (i - (n - 1)) as u32 });
    }
    Tree { words, indices: (0..n as u32).collect() }
}

/// The slices that conversion is lent, and the one that a timed one is lent besides.
struct Slices {
    decisions: Lent<u32>,
    costs: Lent<u32>,
    record: Lent<u8>,
    list: Lent<u32>,
    side: Lent<u8>,
}

/// How many panes there are, and their spans.
struct Hours {
    panes: usize,
    spans: Vec<u8>,
}

/// A span for each index word, so that none is past the panes.
fn all_day(t: &Tree) -> Hours {
    Hours { panes: t.n(), spans: [0, 95].repeat(t.n()) }
}

fn call_timed(t: &Tree, limit: u32, order: u32, hours: &Hours, s: &mut Slices) -> u64 {
    unsafe {
        funnelcress_bvh2_to_cwbvh_timed(
            t.words.as_ptr(),
            t.words.len(),
            t.indices.as_ptr(),
            t.indices.len(),
            limit,
            order,
            hours.panes,
            hours.spans.as_ptr(),
            hours.spans.len(),
            s.decisions.pointer(),
            s.decisions.long,
            s.costs.pointer(),
            s.costs.long,
            s.record.pointer(),
            s.record.long,
            s.list.pointer(),
            s.list.long,
            s.side.pointer(),
            s.side.long,
        )
    }
}

fn call(t: &Tree, limit: u32, order: u32, s: &mut Slices) -> u64 {
    unsafe {
        funnelcress_bvh2_to_cwbvh(
            t.words.as_ptr(),
            t.words.len(),
            t.indices.as_ptr(),
            t.indices.len(),
            limit,
            order,
            s.decisions.pointer(),
            s.decisions.long,
            s.costs.pointer(),
            s.costs.long,
            s.record.pointer(),
            s.record.long,
            s.list.pointer(),
            s.list.long,
        )
    }
}

/// One call, untimed and timed: it is refused as expected.
fn convert(t: &Tree, limit: u32, order: u32, lengths: [usize; 4], expected: Option<u32>) {
    convert_once(t, limit, order, None, lengths, expected);
    convert_once(t, limit, order, Some(&all_day(t)), lengths, expected);
}

/// One call: it is refused as expected, and what it is lent holds what a call so refused, or not refused, leaves there. A record node's
/// row in the side table is a fifth as long as the node.
fn convert_once(t: &Tree, limit: u32, order: u32, hours: Option<&Hours>, lengths: [usize; 4], expected: Option<u32>) {
    let timed = hours.is_some();
    let what = format!("{} leaves, limit {limit}, order {order}, timed {timed}, lengths {lengths:?}, refused {expected:?}", t.n());
    let mut s = Slices {
        decisions: Lent::new(lengths[0], nan),
        costs: Lent::new(lengths[1], nan),
        record: Lent::new(lengths[2], byte),
        list: Lent::new(lengths[3], nan),
        side: Lent::new(lengths[2] / 5, byte),
    };
    let answer = match hours {
        None => call(t, limit, order, &mut s),
        Some(hours) => call_timed(t, limit, order, hours, &mut s),
    };
    let refused = (answer >> 32 == 2).then_some(answer as u32);
    assert_eq!(refused, expected, "{what}");
    let [worked, _, _, n] = t.needs();
    let used = match refused {
        None => [worked, answer as usize % 65536 * 80, n],
        Some(5..) => [worked, 0, 0],
        Some(_) => [0, 0, 0],
    };
    s.decisions.kept_past(used[0], &what);
    s.costs.kept_past(used[0], &what);
    s.record.kept_past(used[1], &what);
    s.list.kept_past(used[2], &what);
    s.side.kept_past(if timed { used[1] / 5 } else { 0 }, &what);
    let most = if refused.is_some() { 0 } else { LARGEST };
    assert!(s.costs.front(used[0]).iter().all(|&w| w <= most), "{what}: costs");
    assert!(refused.is_none() || s.decisions.front(used[0]).iter().all(|&w| w == 0), "{what}: decisions");
}

/// Calls refused 14, whose working slices are cleared as far as they are needed, also where the tree is refused 7.
fn refused_spans(rng: &mut Rng) -> usize {
    let mut calls = 0;
    for n in [1, 2, 50, 1000] {
        let t = heap(rng, n);
        let twice = t.with(7 * (t.nodes() - 1) + 6, 1 << 30);
        let day = all_day(&t).spans;
        let with = |at: usize, byte: u8| {
            let mut spans = day.clone();
            spans[at] = byte;
            Hours { panes: n, spans }
        };
        let short = Hours { panes: n, spans: day[1..].to_vec() };
        let fewer = Hours { panes: n - 1, spans: day[2..].to_vec() };
        for hours in [short, fewer, with(0, 96), with(2 * n - 1, 96), with(2 * n - 2, 255)] {
            for (tree, spare) in [(&t, 0), (&t, 1000), (&twice, 0), (&twice, 1000)] {
                convert_once(tree, 3, 1, Some(&hours), t.needs().map(|k| k + spare), Some(14));
                calls += 1;
            }
        }
    }
    calls
}

/// With every limit and order that is taken, and slices of just the lengths needed, and of some more.
fn convert_all(t: &Tree, expected: Option<u32>) -> usize {
    for limit in 0..4 {
        for order in 0..2 {
            for spare in [0, 1, 1000] {
                convert(t, limit, order, t.needs().map(|k| k + spare), expected);
            }
        }
    }
    24
}

/// Trees that are converted: none, one and two leaves, drawn boxes, the deepest chain, the deepest record.
fn converted(rng: &mut Rng) -> usize {
    let side = |i: usize| [0.0, 0.0, 0.0, 1.0 / (i + 1) as f32, 1.0, 1.0];
    let mut calls = 0;
    for n in [0, 1, 2, 3, 128] {
        calls += convert_all(&chain(n, side), None);
    }
    calls += convert_all(&chain(33, |_| [0.0; 6]), None);
    for n in [2, 5, 8, 9, 100, 1000] {
        calls += convert_all(&heap(rng, n), None);
    }
    calls
}

/// Calls refused 1 to 4, before anything is written.
fn refused_early(rng: &mut Rng) -> [usize; 4] {
    let mut calls = [0; 4];
    for n in [1, 2, 50] {
        let t = heap(rng, n);
        let mut longer = t.clone();
        longer.words.push(nan(0));
        let mut other = t.clone();
        other.indices.push(0);
        calls[0] += convert_all(&longer, Some(1)) + convert_all(&other, Some(1));
        let needs = t.needs();
        for (limit, order) in [(4, 0), (u32::MAX, 1), (3, 2), (0, u32::MAX)] {
            convert(&t, limit, order, needs, Some(3));
            calls[2] += 1;
        }
        for short in 0..4 {
            for spare in [0, 1000] {
                let mut lengths = needs.map(|k| k + spare);
                lengths[short] = needs[short] - 1;
                convert(&t, 3, 1, lengths, Some(4));
                calls[3] += 1;
            }
        }
    }
    let many = Tree { words: vec![0; 7 * 131073], indices: vec![0; 65537] };
    calls[1] += convert_all(&many, Some(2));
    calls
}

/// Trees refused 5 to 8, whose working slices are cleared as far as they are needed.
fn refused_late(rng: &mut Rng) -> [usize; 4] {
    let mut calls = [0; 4];
    for n in [2, 50, 1000] {
        let t = heap(rng, n);
        let last = 7 * (t.nodes() - 1);
        for link in [2 << 30, 3 << 30, 1 << 30 | n as u32, t.nodes() as u32 - 1] {
            calls[0] += convert_all(&t.with(last + 6, link), Some(5));
        }
        for bits in [nan(0), nan(1), nan(2), nan(3), 0x7f80_0000, 0xff80_0000, 0x5380_0001, 0xd380_0001] {
            calls[1] += convert_all(&t.with(last, bits), Some(6)) + convert_all(&t.with(last + 5, bits), Some(6));
        }
        calls[1] += convert_all(&t.with(last, 0x5380_0000), Some(6));
        calls[2] += convert_all(&t.with(last + 6, 1 << 30), Some(7)) + convert_all(&t.with(6, 0), Some(7));
    }
    calls[2] += convert_all(&chain(129, |_| [0.0; 6]), Some(7));
    calls[3] += convert_all(&chain(34, |_| [0.0; 6]), Some(8)) + convert_all(&chain(128, |_| [0.0; 6]), Some(8));
    calls
}

/// The two lists of answers to boxes: as many floats of boxes and of a ray, room for as many answers, and what is refused.
fn lists(rng: &mut Rng) -> usize {
    let mut calls = 0;
    for (floats, rays, room) in [(0, 8, 0), (6, 8, 1), (600, 8, 101), (7, 8, 9), (5, 8, 9), (12, 8, 1), (6, 7, 9), (6, 9, 9)] {
        let boxes: Vec<u32> = (0..floats).map(|k| if k % 3 == 0 { nan(k) } else { (rng.below(99) as f32).to_bits() }).collect();
        let ray: Vec<u32> = (0..rays).map(|k| (k as f32).to_bits()).collect();
        let count = floats / 6;
        let refused = if floats % 6 != 0 { 1 } else if count > room { 4 } else { 0 };
        let used = if refused == 0 { count } else { 0 };
        let mut out = Lent::new(room, nan);
        let number = unsafe { funnelcress_half_areas(boxes.as_ptr(), floats, out.pointer(), room) };
        assert_eq!(number, refused);
        out.kept_past(used, "half areas");
        let (refused, used) = if rays == 8 { (refused, used) } else { (1, 0) };
        let mut out = Lent::new(room, nan);
        let number =
            unsafe { funnelcress_entry_distances(boxes.as_ptr(), floats, ray.as_ptr(), rays, out.pointer(), room) };
        assert_eq!(number, refused);
        out.kept_past(used, "entry distances");
        calls += 2;
    }
    calls
}

/// The record check, on records of zeros: bytes, n, working words, the answer, and how many words are zero then.
fn checks() -> usize {
    let refused = |number: u64| (0x2_0000_0000 + number, 0);
    let cases = [
        (0, 0, 0, (0, 0)),
        (0, 0, 9, (0, 0)),
        (0, 3, 9, (0x1_0000_0000, 3)),
        (80, 0, 9, (0x1_0000_0000, 1)),
        (8000, 5, 105, (0x1_0000_0000, 105)),
        (81, 0, 9, refused(1)),
        (80 * 65536, 0, 140_000, refused(2)),
        (80, 65537, 140_000, refused(2)),
        (8000, 5, 104, refused(4)),
    ];
    for (bytes, n, words, (answer, zeros)) in cases {
        let record = vec![0u8; bytes];
        let mut work = Lent::new(words, nan);
        assert_eq!(unsafe { funnelcress_validate(record.as_ptr(), bytes, n, work.pointer(), words) }, answer);
        assert!(work.front(zeros).iter().all(|&w| w == 0));
        work.kept_past(zeros, "record check");
    }
    cases.len()
}

fn main() {
    let mut rng = Rng::new(20261116);
    println!("converted: {} calls", converted(&mut rng));
    let [one, two, three, four] = refused_early(&mut rng);
    let [five, six, seven, eight] = refused_late(&mut rng);
    for (k, calls) in [one, two, three, four, five, six, seven, eight].into_iter().enumerate() {
        println!("refused {}: {calls} calls", k + 1);
    }
    println!("refused 14: {} calls", refused_spans(&mut rng));
    println!("half areas, entry distances: {} calls", lists(&mut rng));
    println!("record check: {} calls", checks());
    println!("every bit that a call leaves came back");
}
