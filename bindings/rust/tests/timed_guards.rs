//! Timed calls on lent slices: every refusal comes in its place, and what a call leaves as it was comes back bit by bit.
#[path = "common/chain.rs"]
mod chain;
#[path = "common/lent.rs"]
mod lent;

use chain::chain;
use funnelcress::{ALL_DAY, Lengths, Options, Pane, Tree, sys};
use lent::{GUARDS, Lent, byte, nan, word};

/// The five slices of a timed conversion, each longer than needed by so much.
struct Slices {
    decisions: Lent<u32>,
    costs: Lent<u32>,
    record: Lent<u8>,
    list: Lent<u32>,
    side: Lent<u8>,
}

impl Slices {
    fn new(n: usize, more: usize) -> Slices {
        let needed = Lengths::of(n);
        Slices {
            decisions: Lent::new(needed.tables + more, nan),
            costs: Lent::new(needed.tables + more, nan),
            record: Lent::new(needed.record + more, byte),
            list: Lent::new(needed.list + more, nan),
            side: Lent::new(needed.side + more, byte),
        }
    }

    /// One of them is too short by one element.
    fn shorten(&mut self, which: usize, more: usize) {
        let lengths = [
            &mut self.decisions.long,
            &mut self.costs.long,
            &mut self.record.long,
            &mut self.list.long,
            &mut self.side.long,
        ];
        *lengths.into_iter().nth(which).unwrap() -= more + 1;
    }

    fn convert(&mut self, call: &Call) -> u64 {
        unsafe {
            sys::funnelcress_bvh2_to_cwbvh_timed(
                call.words.as_ptr(),
                call.words.len(),
                call.indices.as_ptr(),
                call.indices.len(),
                call.limit,
                call.order,
                call.panes,
                call.spans.as_ptr(),
                call.spans.len(),
                self.decisions.pointer(),
                self.decisions.long,
                self.costs.pointer().cast(),
                self.costs.long,
                self.record.pointer(),
                self.record.long,
                self.list.pointer(),
                self.list.long,
                self.side.pointer(),
                self.side.long,
            )
        }
    }

    fn kept_past(&self, tables: usize, record: usize, list: usize, side: usize) {
        self.decisions.kept_past(tables);
        self.costs.kept_past(tables);
        self.record.kept_past(record);
        self.list.kept_past(list);
        self.side.kept_past(side);
    }
}

/// What a timed conversion is given to read.
#[derive(Clone)]
struct Call {
    words: Vec<u32>,
    indices: Vec<u32>,
    limit: u32,
    order: u32,
    panes: usize,
    spans: Vec<u8>,
}

impl Call {
    fn over(tree: &Tree) -> Call {
        let n = tree.indices().len();
        let (words, indices) = (tree.words().to_vec(), tree.indices().to_vec());
        Call { words, indices, limit: 1, order: 0, panes: n, spans: ALL_DAY.repeat(n) }
    }

    /// With something wrong, for a cause and a way to have it; too little room is lent elsewhere, and 8 is the tree's.
    fn spoilt(mut self, cause: u32, way: usize) -> Call {
        let last = self.words.len() - 7;
        match (cause, way) {
            (1, _) => drop(self.words.pop()),
            (2, _) => (self.words, self.indices) = (vec![0; 7 * 131_073], vec![0; 65_537]),
            (3, 0) => self.limit = 4,
            (3, _) => self.order = 2,
            (5, _) => self.words[6] = 3 << 30,
            (6, _) => self.words[last] = nan(2),
            (7, _) => self.words[last + 6] = 1 << 30,
            (14, 0) => drop(self.spans.pop()),
            (14, 1) => self.spans[..2].copy_from_slice(&[63, 32]),
            (14, 2) => *self.spans.last_mut().unwrap() = 96,
            (14, 3) => *self.indices.last_mut().unwrap() = self.panes as u32,
            (14, _) => self.panes += 1,
            _ => {}
        }
        self
    }
}

/// How many ways there are to have a cause.
fn ways(cause: u32) -> usize {
    match cause {
        3 => 2,
        4 | 14 => 5,
        _ => 1,
    }
}

#[test]
fn conversions() {
    for n in [0, 1, 2, 3, 9, 33] {
        let tree = if n < 2 { Tree::over(&vec![[0.0; 6]; n]) } else { chain(n as u32) };
        let untimed = tree.convert_by(1, 0).unwrap();
        for more in [0, 1, 100] {
            let mut s = Slices::new(n, more);
            let nodes = (s.convert(&Call::over(&tree)) & 0xffff) as usize;
            let needed = Lengths::of(n);
            s.kept_past(needed.tables, 80 * nodes, needed.list, 16 * nodes);
            assert_eq!(s.record.all[GUARDS..GUARDS + 80 * nodes], *untimed.bytes());
            let metas = untimed.bytes().chunks(80).flat_map(|node| &node[24..32]);
            let spans = metas.flat_map(|meta| if *meta == 0 { [0, 0] } else { ALL_DAY });
            assert!(s.side.all[GUARDS..GUARDS + 16 * nodes].iter().copied().eq(spans), "{n} leaves");
        }
    }
}

/// The first cause refuses a conversion, whatever comes after it, and leaves what it has to leave.
#[test]
fn refused_conversions() {
    let order = [1, 2, 3, 4, 5, 6, 14, 7, 8];
    for (k, first) in order.into_iter().enumerate() {
        for later in [0].iter().chain(&order[k + 1..]) {
            for way in 0..ways(first) {
                let n = if first == 8 || *later == 8 { 34 } else { 33 };
                let call = Call::over(&chain(n)).spoilt(*later, ways(*later) - 1).spoilt(first, way);
                let mut s = Slices::new(n as usize, 5);
                if first == 4 {
                    s.shorten(way, 5);
                }
                if *later == 4 {
                    s.shorten(4, 5);
                }
                assert_eq!(s.convert(&call), 0x2_0000_0000 + u64::from(first), "{first}, way {way}, and {later}");
                let cleared = if first < 5 { 0 } else { Lengths::of(n as usize).tables };
                s.kept_past(cleared, 0, 0, 0);
                let tables =
                    s.decisions.all[GUARDS..GUARDS + cleared].iter().chain(&s.costs.all[GUARDS..GUARDS + cleared]);
                assert!(tables.copied().all(|w| w == 0));
            }
        }
    }
}

const ALONG: [f32; 8] = [-1.0, 0.5, 0.5, 1.0, 0.0, 0.0, 0.0, f32::INFINITY];

/// What a timed report is given to read: nine panes in a row, all there at quarter 40, and three rays along them.
#[derive(Clone)]
struct Asked {
    bytes: Vec<u8>,
    side: Vec<u8>,
    indices: Vec<u32>,
    panes: usize,
    spans: Vec<u8>,
    losses: Vec<u32>,
    floats: Vec<f32>,
    quarters: Vec<u8>,
}

impl Asked {
    fn new() -> Asked {
        let panes: Vec<Pane> = (0..9).map(|k| [2.0 * k as f32, 0.0, 0.0, 2.0 * k as f32 + 1.0, 1.0, 1.0]).collect();
        let spans = [[40, 95]; 9];
        let timed = Tree::over(&panes).convert_timed(9, &spans, Options::default()).unwrap();
        Asked {
            bytes: timed.record().bytes().to_vec(),
            side: timed.side().to_vec(),
            indices: timed.record().indices().to_vec(),
            panes: 9,
            spans: spans.concat(),
            losses: vec![2; 9],
            floats: ALONG.repeat(3),
            quarters: vec![40, 39, 95],
        }
    }

    fn spoilt(mut self, cause: u32, way: usize) -> Asked {
        match (cause, way) {
            (1, 0) => self.floats.push(0.0),
            (1, 1) => drop(self.quarters.pop()),
            (1, _) => self.quarters.push(40),
            (2, _) => (self.floats, self.quarters) = (ALONG.repeat(65_537), vec![40; 65_537]),
            (12, 0) => self.losses[8] = 1_000_001,
            (12, _) => self.losses.push(0),
            (14, 0) => drop(self.spans.pop()),
            (14, 1) => self.spans[..2].copy_from_slice(&[63, 32]),
            (14, 2) => self.spans[17] = 96,
            (14, 3) => drop(self.side.pop()),
            (14, 4) => self.side.extend([0; 16]),
            (14, _) => *self.quarters.last_mut().unwrap() = 96,
            (9, _) => *self.floats.last_mut().unwrap() = f32::NAN,
            (10, _) => self.indices[0] = 9,
            _ => {}
        }
        self
    }

    /// The number, and both totals, longer than needed by so much.
    fn report(&self, room: usize, more: usize) -> (u64, Lent<u64>, Lent<u64>) {
        let (mut of_rays, mut of_panes) = (Lent::new(room + more, word), Lent::new(9 + more, word));
        let number = unsafe {
            sys::funnelcress_report_timed(
                self.bytes.as_ptr(),
                self.bytes.len(),
                self.side.as_ptr(),
                self.side.len(),
                self.indices.as_ptr(),
                self.indices.len(),
                self.panes,
                self.spans.as_ptr(),
                self.spans.len(),
                self.losses.as_ptr(),
                self.losses.len(),
                self.floats.as_ptr(),
                self.floats.len(),
                self.quarters.as_ptr(),
                self.quarters.len(),
                of_rays.pointer(),
                of_rays.long,
                of_panes.pointer(),
                of_panes.long,
            )
        };
        (number, of_rays, of_panes)
    }
}

#[test]
fn reports() {
    for more in [0, 1, 100] {
        let (tests, of_rays, of_panes) = Asked::new().report(3, more);
        assert!(tests < 1 << 32 && tests > 0);
        of_rays.kept_past(3);
        of_panes.kept_past(9);
        assert_eq!(of_rays.all[GUARDS..GUARDS + 3], [18, 0, 18]);
        assert_eq!(of_panes.all[GUARDS..GUARDS + 9], [4; 9]);
    }
}

/// The first cause refuses a report, whatever comes after it, and both totals stay as they were.
#[test]
fn refused_reports() {
    let order = [(1, 3), (2, 1), (4, 1), (12, 2), (14, 6), (9, 1), (10, 1)];
    for (k, (first, ways)) in order.into_iter().enumerate() {
        for (later, others) in [(0, 1)].iter().chain(&order[k + 1..]) {
            for way in 0..ways {
                let asked = Asked::new().spoilt(*later, others - 1).spoilt(first, way);
                let room = if first == 4 || *later == 4 { 2 } else { asked.quarters.len() };
                let (number, of_rays, of_panes) = asked.report(room, 0);
                assert_eq!(number, 0x2_0000_0000 + u64::from(first), "{first}, way {way}, and {later}");
                of_rays.kept_past(0);
                of_panes.kept_past(0);
            }
        }
    }
}

/// Empty slices may have any pointer.
#[test]
fn empty_calls() {
    let (none, words) = (std::ptr::null(), std::ptr::null());
    let (lent, totals) = (std::ptr::null_mut(), std::ptr::null_mut());
    let converted = unsafe {
        sys::funnelcress_bvh2_to_cwbvh_timed(
            words,
            0,
            words,
            0,
            3,
            1,
            0,
            none,
            0,
            lent,
            0,
            std::ptr::null_mut(),
            0,
            std::ptr::null_mut(),
            0,
            lent,
            0,
            std::ptr::null_mut(),
            0,
        )
    };
    let floats = std::ptr::null();
    let reported = unsafe {
        sys::funnelcress_report_timed(
            none, 0, none, 0, words, 0, 0, none, 0, words, 0, floats, 0, none, 0, totals, 0, totals, 0,
        )
    };
    assert_eq!((converted, reported), (0, 0));
}
