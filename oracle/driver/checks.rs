//! Stored record checks: sound records as converted, and the same damaged, with the verdict by the definition; small
//! records with what the published `validate` says of them; refusals by lengths alone. Apart from these, lines of
//! `checkrecord`.
use crate::accept::{MOST_LEAVES, MOST_NODES};
use crate::conversions::some_tree;
use crate::convert::{bvh_of, convert};
use crate::record::{Verdict, check, node};
use crate::rng::Rng;
use crate::small;
use crate::store::*;
use crate::tree::sample_tree;
use obvhs::Boundable;
use obvhs::aabb::Aabb;

/// The working words that are enough for any record.
const CHECK_WORDS: usize = MOST_NODES + MOST_LEAVES;

struct Anything;
impl Boundable for Anything {
    fn aabb(&self) -> Aabb {
        Aabb::LARGEST
    }
}

/// What the published `validate` says with so many panes lent: its depth, or nothing where an assertion fails. Only for
/// records whose child ranges start past the node's own number: others may recurse without end.
fn validate(record: &[u8], n: usize, panes: usize) -> Option<u32> {
    let bvh = bvh_of(record, &(0..n as u32).collect::<Vec<_>>());
    let panes: Vec<Anything> = (0..panes).map(|_| Anything).collect();
    let hook = std::panic::take_hook();
    std::panic::set_hook(Box::new(|_| {}));
    let depth = std::panic::catch_unwind(|| bvh.validate(&panes, true).max_depth).ok();
    std::panic::set_hook(hook);
    depth
}

pub fn validated(record: &[u8], n: usize) -> Option<u32> {
    validate(record, n, n)
}

/// Whether it passes with a pane more than there are positions: then a position n is looked up, and no index fails.
pub fn passes(record: &[u8], n: usize) -> bool {
    validate(record, n, n + 1).is_some()
}

pub fn forward(record: &[u8]) -> bool {
    (0..record.len() / 80).all(|i| node(record, i).imask() == 0 || node(record, i).child_base() as usize > i)
}

/// Bytes, n, working words, verdict (0 sound, 1 unsound, 2 refused), level or number.
fn head(record: &[u8], n: usize, work: usize) -> Vec<u32> {
    let (code, value) = match check(record, n, work) {
        Verdict::Sound(level) => (0, level),
        Verdict::Unsound => (1, 0),
        Verdict::Refused(number) => (2, number),
    };
    vec![record.len() as u32, n as u32, work as u32, code, value]
}

/// These, then the record.
fn case(record: &[u8], n: usize, work: usize) -> Vec<u32> {
    [head(record, n, work), words_of(record)].concat()
}

/// Changes one field of one node, or n.
pub fn damage(rng: &mut Rng, record: &mut [u8], n: &mut usize) {
    let m = record.len() / 80;
    if m == 0 {
        *n += 1;
        return;
    }
    let i = rng.below(m);
    let d = &mut record[80 * i..80 * i + 80];
    let slot = rng.below(8);
    match rng.below(12) {
        0 => d[4 * rng.below(3) + 3] = rng.pick(&[0x53, 0x54, 0x7f, 0xff, 0xd4]),
        1 => d[12 + rng.below(3)] = rng.pick(&[0, 52, 53, 161, 162, 255]),
        2 => d[15] ^= 1 << slot,
        3 => d[16] = d[16].wrapping_add(rng.pick(&[1, 255, 7])),
        4 => d[20] = d[20].wrapping_add(rng.pick(&[1, 255, 24])),
        5 => d[19] = 255,
        6 => d[23] = 255,
        7 => d[24 + slot] = rng.pick(&[0, 0x20, 0x40, 0x60, 0x80, 0xa0, 0xc0, 0xe0]) | rng.below(32) as u8,
        8 => d[24 + slot] = 56 + rng.below(8) as u8,
        9 => d[24 + slot] = d[24 + slot].wrapping_add(1),
        10 => *n = if rng.once_in(2) { *n + 1 } else { n.saturating_sub(1) },
        _ => d[32 + rng.below(48)] ^= 1 << rng.below(8),
    }
}

/// Nodes 0 to k in a line, each with the next as its only child, or two parents for the last: m nodes, no positions.
fn line(m: usize, twice: bool) -> Vec<u8> {
    let mut record = vec![0u8; 80 * m];
    for i in 0..m {
        let d = &mut record[80 * i..80 * i + 80];
        d[12..15].fill(127);
        if i + 1 < m {
            d[15] = 1;
            d[24] = 56;
            d[16..20].copy_from_slice(&(i as u32 + 1).to_le_bytes());
            if twice && i + 2 < m {
                d[15] = 3;
                d[25] = 57;
            }
        }
    }
    record
}

fn checked(rng: &mut Rng) -> Group {
    let mut g = Group::new(CHECK, 0);
    for n in [0, 1] {
        g.add(case(&[], n, n));
        g.add(case(&[0; 79], n, 100));
        g.add(case(&[0; 80], n, 1 + n));
        g.add(case(&[0; 80], n, n));
    }
    for (m, twice) in [(1, false), (2, false), (31, false), (32, false), (33, false), (3, true), (20, true)] {
        g.add(case(&line(m, twice), 0, m));
        g.add(case(&line(m, twice), 0, m - 1));
    }
    for s in small::agreed() {
        let sound = matches!(check(&s.record, s.n, s.words()), Verdict::Sound(_));
        assert_eq!(sound, passes(&s.record, s.n), "{}", s.what);
        g.add(case(&s.record, s.n, s.words()));
    }
    for k in 0..150 {
        let t = some_tree(rng, k);
        let c = convert(&t, rng.below(4) as u32, rng.once_in(2));
        let (n, m) = (t.indices.len(), c.record.len() / 80);
        if c.deepest > 31 || m > 30 {
            continue;
        }
        g.add(case(&c.record, n, m + n));
        if k % 10 == 0 {
            g.add(case(&c.record, n, m + n - 1));
            g.add(case(&c.record[..c.record.len() - 1], n, m + n));
        }
        for _ in 0..3 {
            let (mut record, mut n) = (c.record.clone(), n);
            damage(rng, &mut record, &mut n);
            g.add(case(&record, n, m + n + rng.below(3)));
        }
    }
    g
}

/// Unsound records that pass `validate` (1), or on which it never ends (2): the five words, this word, then the record.
fn laxer() -> Group {
    let mut g = Group::new(CHECK_LAXER, 0);
    for s in small::laxer() {
        assert!(!s.ends || passes(&s.record, s.n), "{}", s.what);
        let says = if s.ends { 1 } else { 2 };
        g.add([head(&s.record, s.n, s.words()), vec![says], words_of(&s.record)].concat());
    }
    g
}

/// The five words for records of zero bytes.
fn sizes() -> Group {
    let mut g = Group::new(CHECK_SIZES, 5);
    for bytes in [0, 79, 80, 80 * MOST_NODES - 1, 80 * MOST_NODES, 80 * MOST_NODES + 1, 80 * MOST_NODES + 80] {
        let record = vec![0u8; bytes];
        for n in [0, 1, MOST_LEAVES, MOST_LEAVES + 1, u32::MAX as usize] {
            let need = (bytes / 80 + n).min(CHECK_WORDS);
            let mut rooms = vec![0, need.saturating_sub(1), need];
            rooms.dedup();
            rooms.into_iter().for_each(|work| g.add(head(&record, n, work)));
        }
    }
    g
}

/// What the program `checkrecord` prints for its input: a word n, then a record.
fn checkrecord(input: &[u8]) -> String {
    let verdict = match input.split_first_chunk() {
        Some((n, record)) => check(record, u32::from_le_bytes(*n) as usize, CHECK_WORDS),
        None => Verdict::Refused(1),
    };
    match verdict {
        Verdict::Sound(level) => format!("sound {level}\n"),
        Verdict::Unsound => "unsound\n".into(),
        Verdict::Refused(number) => format!("refused {number}\n"),
    }
}

/// Bytes of the input's start, of the input, of output; then start and output, each filled up to whole words. The input
/// is zero past its start.
fn line_case(start: &[u8], long: usize) -> Vec<u32> {
    let mut input = start.to_vec();
    input.resize(long, 0);
    let output = checkrecord(&input);
    let head = vec![start.len() as u32, long as u32, output.len() as u32];
    [head, words_of(start), words_of(output.as_bytes())].concat()
}

/// Lengths of records at and past that of the longest that may be sound: around whole numbers of nodes, and around the
/// ends of 64 KiB behind the first node too many.
fn longest() -> Vec<usize> {
    let nodes = [MOST_NODES, MOST_NODES + 1, MOST_NODES + 2, MOST_NODES + 820, 2 * MOST_NODES, 250_000];
    let ends = [1, 2].map(|k| 80 * (MOST_NODES + 1) + 65536 * k);
    nodes.map(|m| 80 * m).into_iter().chain(ends).flat_map(|k| [k - 1, k, k + 1]).collect()
}

fn lines() -> Group {
    let mut g = Group::new(CHECKRECORD, 0);
    let input = |n: usize, record: &[u8]| [&(n as u32).to_le_bytes(), record].concat();
    let t = convert(&sample_tree(), 3, false).record;
    (0..4).for_each(|k| g.add(line_case(&[0, 0, 0, 0][..k], k)));
    for n in [0, 1, MOST_LEAVES, MOST_LEAVES + 1, u32::MAX as usize] {
        let longs = [vec![0, 1, 79, 80, 81], longest()].concat();
        longs.into_iter().for_each(|k| g.add(line_case(&input(n, &[]), 4 + k)));
    }
    longest().into_iter().for_each(|k| g.add(line_case(&input(2, &t), 4 + k)));
    let mut add = |n: usize, record: &[u8]| g.add(line_case(&input(n, record), 4 + record.len()));
    [1, 2, 10, 11, 32, 33].into_iter().for_each(|m| add(0, &line(m, false)));
    (0..4).for_each(|n| add(n, &t));
    small::records().iter().for_each(|s| add(s.n, &s.record));
    g
}

pub fn groups(seed: u64) -> Vec<Group> {
    vec![checked(&mut Rng::new(seed)), laxer(), sizes()]
}

pub fn line_groups() -> Vec<Group> {
    vec![lines()]
}
