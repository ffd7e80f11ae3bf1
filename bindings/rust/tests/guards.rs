//! Nothing is written past a slice, and what a call leaves as it was comes back bit by bit, NaNs with payloads too.
#[path = "common/lent.rs"]
mod lent;

use funnelcress::{Lengths, Options, Pane, Tree, sys};
use lent::{GUARDS, Lent, byte, nan, word};

fn panes(n: usize) -> Vec<Pane> {
    (0..n).map(|k| [2.0 * k as f32, 0.0, 0.0, 2.0 * k as f32 + 1.0, 1.0, 1.0]).collect()
}

const ALONG: [f32; 8] = [-1.0, 0.5, 0.5, 1.0, 0.0, 0.0, 0.0, f32::INFINITY];

/// The four slices of conversion, each longer than needed by so much.
struct Slices {
    decisions: Lent<u32>,
    costs: Lent<u32>,
    record: Lent<u8>,
    list: Lent<u32>,
}

impl Slices {
    fn new(n: usize, more: usize) -> Slices {
        let needed = Lengths::of(n);
        Slices {
            decisions: Lent::new(needed.tables + more, nan),
            costs: Lent::new(needed.tables + more, nan),
            record: Lent::new(needed.record + more, byte),
            list: Lent::new(needed.list + more, nan),
        }
    }

    fn convert(&mut self, tree: &Tree, limit: u32) -> u64 {
        unsafe {
            sys::funnelcress_bvh2_to_cwbvh(
                tree.words().as_ptr(),
                tree.words().len(),
                tree.indices().as_ptr(),
                tree.indices().len(),
                limit,
                1,
                self.decisions.pointer(),
                self.decisions.long,
                self.costs.pointer().cast(),
                self.costs.long,
                self.record.pointer(),
                self.record.long,
                self.list.pointer(),
                self.list.long,
            )
        }
    }

    fn kept_past(&self, tables: usize, record: usize, list: usize) {
        self.decisions.kept_past(tables);
        self.costs.kept_past(tables);
        self.record.kept_past(record);
        self.list.kept_past(list);
    }
}

#[test]
fn conversions() {
    for n in [0, 1, 2, 3, 9, 40] {
        for more in [0, 1, 100] {
            let tree = Tree::over(&panes(n));
            let needed = Lengths::of(n);
            let mut s = Slices::new(n, more);
            let nodes = (s.convert(&tree, 3) & 0xffff) as usize;
            s.kept_past(needed.tables, 80 * nodes, needed.list);
            let mut s = Slices::new(n, more);
            assert_eq!(s.convert(&tree, 4), 0x2_0000_0003);
            s.kept_past(0, 0, 0);
        }
    }
}

#[test]
fn refused_conversions() {
    let tree = Tree::over(&panes(9));
    let mut s = Slices::new(8, 0);
    assert_eq!(s.convert(&tree, 3), 0x2_0000_0004);
    s.kept_past(0, 0, 0);
    let mut words = tree.words().to_vec();
    words[6] = 3 << 30;
    let damaged = Tree::from_words(words, tree.indices().to_vec());
    let mut s = Slices::new(9, 5);
    assert_eq!(s.convert(&damaged, 3), 0x2_0000_0005);
    s.kept_past(Lengths::of(9).tables, 0, 0);
    assert!(s.decisions.all[GUARDS..GUARDS + 119].iter().chain(&s.costs.all[GUARDS..GUARDS + 119]).all(|w| *w == 0));
}

#[test]
fn checks_and_lists() {
    let record = Tree::over(&panes(9)).convert(Options::default()).unwrap();
    let (bytes, n) = (record.bytes(), record.positions());
    let used = bytes.len() / 80 + n;
    for (room, number) in [(used, 0), (used + 3, 0), (used - 1, 0x2_0000_0004)] {
        let mut work = Lent::new(room, nan);
        let x = unsafe { sys::funnelcress_validate(bytes.as_ptr(), bytes.len(), n, work.pointer(), room) };
        assert_eq!(x >> 32 << 32 | if number == 0 { 0 } else { x & 0xff }, number);
        work.kept_past(if number == 0 { used } else { 0 });
        assert!(number != 0 || work.all[GUARDS..GUARDS + used].iter().all(|w| *w == 0));
    }
    for room in [0, 8, 9, 10] {
        let mut list = Lent::new(room, nan);
        let x = unsafe {
            sys::funnelcress_any_hit(bytes.as_ptr(), bytes.len(), n, ALONG.as_ptr(), 8, list.pointer(), room)
        };
        list.kept_past(if room < 9 { 0 } else { 9 });
        assert_eq!(x as u32, 9);
    }
}

#[test]
fn distances() {
    let panes = panes(9);
    let record = Tree::over(&panes).convert(Options::default()).unwrap();
    let (bytes, list, panes) = (record.bytes(), record.indices(), panes.as_flattened());
    let mut behind = ALONG;
    behind[3] = -1.0;
    let mut short = ALONG;
    short[7] = f32::NAN;
    for (ray, room, used) in [(ALONG, 3, 1), (behind, 3, 0), (short, 3, 0), (ALONG, 0, 0)] {
        let mut out = Lent::new(room, nan);
        unsafe {
            sys::funnelcress_closest(
                bytes.as_ptr(),
                bytes.len(),
                list.as_ptr(),
                list.len(),
                panes.as_ptr(),
                panes.len(),
                ray.as_ptr(),
                8,
                out.pointer().cast(),
                room,
            )
        };
        out.kept_past(used);
    }
}

#[test]
fn walkers() {
    let record = Tree::over(&panes(9)).convert(Options::default()).unwrap();
    let (bytes, n) = (record.bytes(), record.positions());
    let (mut head, mut stack) = (Lent::new(18, word), Lent::new(32, word));
    let refused = unsafe { sys::funnelcress_begin(ALONG.as_ptr(), 7, head.pointer(), stack.pointer()) };
    let forged = unsafe { sys::funnelcress_step(head.pointer(), stack.pointer(), bytes.as_ptr(), bytes.len(), n) };
    assert_eq!((refused, forged), (0x2_0000_0001, 0x2_0000_000a));
    head.kept_past(0);
    stack.kept_past(0);
    assert_eq!(unsafe { sys::funnelcress_begin(ALONG.as_ptr(), 8, head.pointer(), stack.pointer()) }, 0);
    let mut kinds = [0; 4];
    for _ in 0..100 {
        let x = unsafe { sys::funnelcress_step(head.pointer(), stack.pointer(), bytes.as_ptr(), bytes.len(), n) };
        unsafe { sys::funnelcress_tell(head.pointer(), stack.pointer(), f32::NAN) };
        kinds[(x >> 32) as usize] += 1;
    }
    assert_eq!(kinds[1..3], [9, 0]);
    head.kept_past(18);
    stack.kept_past(32);
}

/// A report over nine panes and its two slices, each longer than needed by so much.
fn report(rays: &[[f32; 8]], floats: usize, losses: &[u32], more: usize) -> (u64, Lent<u64>, Lent<u64>) {
    let record = Tree::over(&panes(9)).convert(Options::default()).unwrap();
    let (bytes, list) = (record.bytes(), record.indices());
    let (mut of_rays, mut of_panes) = (Lent::new(rays.len() + more, word), Lent::new(9 + more, word));
    let number = unsafe {
        sys::funnelcress_report(
            bytes.as_ptr(),
            bytes.len(),
            list.as_ptr(),
            list.len(),
            9,
            losses.as_ptr(),
            losses.len(),
            rays.as_flattened().as_ptr(),
            floats,
            of_rays.pointer(),
            of_rays.long,
            of_panes.pointer(),
            of_panes.long,
        )
    };
    (number, of_rays, of_panes)
}

#[test]
fn reports() {
    let mut refused = ALONG;
    refused[7] = f32::NAN;
    let rays = [ALONG, ALONG, refused];
    for more in [0, 1, 100] {
        for count in 0..3 {
            let (tests, of_rays, of_panes) = report(&rays[..count], 8 * count, &[2; 9], more);
            assert!(tests < 1 << 32 && (tests == 0) == (count == 0));
            of_rays.kept_past(count);
            of_panes.kept_past(9);
            assert!(of_rays.all[GUARDS..GUARDS + count].iter().all(|total| *total == 18));
            assert!(of_panes.all[GUARDS..GUARDS + 9].iter().all(|total| *total == 2 * count as u64));
        }
        for (floats, loss, cause) in [(24, 2, 9), (24, 1_000_001, 12), (23, 2, 1), (17, 1_000_001, 1)] {
            let (number, of_rays, of_panes) = report(&rays, floats, &[loss; 9], more);
            assert_eq!(number, 0x2_0000_0000 + cause);
            of_rays.kept_past(0);
            of_panes.kept_past(0);
        }
    }
}

/// The three slices of a join, each longer than the trees need by so much.
struct Joining {
    marks: Lent<u32>,
    words: Lent<u32>,
    indices: Lent<u32>,
}

impl Joining {
    fn new(n: usize, m: usize, more: usize) -> Joining {
        let needed = Lengths::of(n + m);
        Joining {
            marks: Lent::new(Lengths::marks(n, m) + more, nan),
            words: Lent::new(needed.words + more, nan),
            indices: Lent::new(needed.list + more, nan),
        }
    }

    fn join(&mut self, first: &Tree, panes: usize, second: &Tree) -> u64 {
        unsafe {
            sys::funnelcress_join(
                first.words().as_ptr(),
                first.words().len(),
                first.indices().as_ptr(),
                first.indices().len(),
                panes,
                second.words().as_ptr(),
                second.words().len(),
                second.indices().as_ptr(),
                second.indices().len(),
                self.marks.pointer(),
                self.marks.long,
                self.words.pointer(),
                self.words.long,
                self.indices.pointer(),
                self.indices.long,
            )
        }
    }

    /// So many marks are zero, and so much of the outputs is written.
    fn left(&self, marks: usize, words: usize, indices: usize) {
        assert!(self.marks.all[GUARDS..GUARDS + marks].iter().all(|w| *w == 0));
        self.marks.kept_past(marks);
        self.words.kept_past(words);
        self.indices.kept_past(indices);
    }
}

#[test]
fn joins() {
    for (n, m) in [(0, 0), (0, 1), (3, 0), (1, 1), (2, 2), (5, 9), (9, 5)] {
        let (first, second) = (Tree::over(&panes(n)), Tree::over(&panes(m)));
        let needed = Lengths::of(n + m);
        for more in [0, 1, 100] {
            let mut s = Joining::new(n, m, more);
            assert_eq!(s.join(&first, n, &second), (n + m) as u64);
            s.left(Lengths::marks(n, m), needed.words, needed.list);
            let tree = first.join(n, &second).unwrap();
            assert_eq!(s.words.all[GUARDS..GUARDS + needed.words], *tree.words());
            assert_eq!(s.indices.all[GUARDS..GUARDS + needed.list], *tree.indices());
        }
    }
}

#[test]
fn refused_joins() {
    let (first, second) = (Tree::over(&panes(5)), Tree::over(&panes(9)));
    let cut = Tree::from_words(first.words()[1..].to_vec(), first.indices().to_vec());
    let large = Tree::from_words(vec![0; 7 * 131_071], vec![0; 65_536]);
    let with = |at: usize, word: u32| {
        let mut words = first.words().to_vec();
        words[at] = word;
        Tree::from_words(words, first.indices().to_vec())
    };
    for more in [0, 5] {
        for (tree, panes, number) in [
            (&cut, 5, 1),
            (&large, 5, 2),
            (&with(6, 3 << 30), 5, 5),
            (&with(3, nan(2)), 5, 6),
            (&with(13, 1), 5, 7),
            (&first, u32::MAX as usize - 7, 13),
            (&first, usize::MAX, 13),
        ] {
            let mut s = Joining::new(5, 9, more);
            assert_eq!(s.join(tree, panes, &second), 0x2_0000_0000 + number);
            s.left(if number < 5 { 0 } else { Lengths::marks(5, 9) }, 0, 0);
        }
        for short in 0..3 {
            let mut s = Joining::new(5, 9, more);
            let slice = [&mut s.marks, &mut s.words, &mut s.indices].into_iter().nth(short).unwrap();
            slice.long -= more + 1;
            assert_eq!(s.join(&with(6, 3 << 30), usize::MAX, &second), 0x2_0000_0004);
            s.left(0, 0, 0);
        }
    }
}

/// Empty slices may have any pointer.
#[test]
fn empty_joins() {
    let (none, lent) = (std::ptr::null(), std::ptr::null_mut());
    let number = unsafe { sys::funnelcress_join(none, 0, none, 0, 7, none, 0, none, 0, lent, 0, lent, 0, lent, 0) };
    assert_eq!(number, 0);
}

/// Empty slices may have any pointer.
#[test]
fn empty_reports() {
    let (none, totals) = (std::ptr::null(), std::ptr::null_mut());
    let number = unsafe {
        sys::funnelcress_report(
            none,
            0,
            std::ptr::null(),
            0,
            0,
            std::ptr::null(),
            0,
            ALONG.as_ptr(),
            0,
            totals,
            0,
            totals,
            0,
        )
    };
    assert_eq!(number, 0);
}
