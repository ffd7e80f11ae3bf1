//! The files of stored answers: little-endian 32-bit words, group after group.
//!
//! A group is its kind, its count of cases, and the words of a case, then the cases; where the words of a case are
//! given as 0, each case starts with its own number of words. A last group of kind 0 counts the groups before it.
use std::io::Write;
use std::path::Path;

pub const SAFE_INVERSE: u32 = 1;
pub const RAY: u32 = 2;
pub const BOX: u32 = 3;
pub const UNION: u32 = 4;
pub const ENTRY: u32 = 5;
pub const EXPONENT: u32 = 6;
pub const ENDS: u32 = 7;
pub const DECODED: u32 = 8;
pub const NODE_RULE: u32 = 9;
pub const HIT_MASK: u32 = 10;
pub const SLOTS: u32 = 11;
pub const CONVERSION: u32 = 16;
pub const CONVERSION_REFUSED: u32 = 17;
pub const CONVERSION_SIZES: u32 = 18;
pub const CHILDREN: u32 = 19;
pub const COST_TABLES: u32 = 20;
pub const SEATED_NODES: u32 = 21;
pub const CHECK: u32 = 24;
pub const CHECK_LAXER: u32 = 25;
pub const CHECK_SIZES: u32 = 26;
pub const QUERIES: u32 = 32;
pub const TWO_CAUSES: u32 = 33;
pub const QUERY_SIZES: u32 = 34;
pub const LONG_LISTS: u32 = 35;
pub const WALKS: u32 = 36;
pub const CALLS: u32 = 37;
pub const FORGED: u32 = 38;
pub const STEP_SIZES: u32 = 39;
pub const SHOWRECORD: u32 = 40;
pub const CHECKRECORD: u32 = 41;
pub const LARGE_TREES: u32 = 42;
pub const LOSSES: u32 = 43;
pub const LOSS_SIZES: u32 = 44;
pub const JOINS: u32 = 45;
pub const JOIN_SIZES: u32 = 46;
pub const ORDERED_AND_NOT: u32 = 47;
pub const TIMED_CONVERSION: u32 = 48;
pub const TIMED_CONVERSION_REFUSED: u32 = 49;
pub const TIMED_CONVERSION_SIZES: u32 = 50;
pub const TIMED_QUERIES: u32 = 51;
pub const TIMED_TWO_CAUSES: u32 = 52;
pub const TIMED_QUERY_SIZES: u32 = 53;
pub const TIMED_WALKS: u32 = 54;
pub const TIMED_CALLS: u32 = 55;
pub const TIMED_FORGED: u32 = 56;
pub const TIMED_LOSSES: u32 = 57;
pub const TIMED_LOSS_SIZES: u32 = 58;
pub const TIMED_LARGE_TREES: u32 = 59;

pub struct Group {
    pub kind: u32,
    pub width: usize,
    pub cases: Vec<Vec<u32>>,
}

impl Group {
    /// A group whose cases have the same number of words; 0 where each has its own.
    pub fn new(kind: u32, width: usize) -> Group {
        Group { kind, width, cases: vec![] }
    }

    pub fn add(&mut self, case: Vec<u32>) {
        assert!(self.width == 0 || self.width == case.len());
        self.cases.push(case);
    }
}

/// Bytes as words, the last filled up with zeros.
pub fn words_of(bytes: &[u8]) -> Vec<u32> {
    let word = |c: &[u8]| c.iter().rev().fold(0, |w, &b| w << 8 | b as u32);
    bytes.chunks(4).map(word).collect()
}

pub fn write(path: &Path, groups: &[Group]) {
    let mut words: Vec<u32> = vec![];
    for g in groups {
        words.extend([g.kind, g.cases.len() as u32, g.width as u32]);
        for c in &g.cases {
            if g.width == 0 {
                words.push(c.len() as u32);
            }
            words.extend(c);
        }
    }
    words.extend([0, groups.len() as u32, 0]);
    let mut file = std::fs::File::create(path).unwrap();
    let bytes: Vec<u8> = words.iter().flat_map(|w| w.to_le_bytes()).collect();
    file.write_all(&bytes).unwrap();
    for g in groups {
        println!("{}: kind {}, {} cases", path.file_name().unwrap().to_string_lossy(), g.kind, g.cases.len());
    }
    println!("{}: {} bytes", path.file_name().unwrap().to_string_lossy(), bytes.len());
}
