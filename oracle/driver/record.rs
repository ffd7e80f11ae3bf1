//! The rules of a record on its bytes: the node rule and soundness. No code is shared with the published `validate`.
use crate::accept::{MOST_LEAVES, MOST_NODES, in_bounds};

/// One node's fields at their byte offsets.
pub struct Node<'a>(pub &'a [u8]);

impl Node<'_> {
    pub fn word(&self, at: usize) -> u32 {
        u32::from_le_bytes(self.0[at..at + 4].try_into().unwrap())
    }
    pub fn p(&self, axis: usize) -> f32 {
        f32::from_bits(self.word(4 * axis))
    }
    pub fn e(&self, axis: usize) -> u8 {
        self.0[12 + axis]
    }
    pub fn imask(&self) -> u32 {
        self.0[15] as u32
    }
    pub fn child_base(&self) -> u32 {
        self.word(16)
    }
    pub fn primitive_base(&self) -> u32 {
        self.word(20)
    }
    pub fn meta(&self, slot: usize) -> u8 {
        self.0[24 + slot]
    }
    /// The least or greatest end of a slot's box on an axis.
    pub fn end(&self, slot: usize, axis: usize, greatest: bool) -> u8 {
        self.0[32 + 16 * axis + 8 * greatest as usize + slot]
    }
    /// A leaf slot's first position and how many it has.
    pub fn leaf_range(&self, slot: usize) -> (u64, u64) {
        let meta = self.meta(slot);
        (self.primitive_base() as u64 + (meta & 31) as u64, (meta >> 5).count_ones() as u64)
    }
    pub fn is_leaf_slot(&self, slot: usize) -> bool {
        self.meta(slot) != 0 && self.imask() >> slot & 1 == 0
    }
}

pub fn node(record: &[u8], i: usize) -> Node<'_> {
    Node(&record[80 * i..80 * i + 80])
}

/// The node rule for node i of a record, with n positions.
pub fn rule(record: &[u8], n: usize, i: usize) -> bool {
    rule_of(&node(record, i), i, record.len() / 80, n)
}

/// The same for a node by itself, number i of m.
pub fn rule_of(d: &Node, i: usize, m: usize, n: usize) -> bool {
    let head = (0..3).all(|a| in_bounds(d.p(a)) && (53..=161).contains(&d.e(a)));
    let slot = |s: usize| {
        let meta = d.meta(s);
        if d.imask() >> s & 1 == 1 {
            return meta == 56 + s as u8;
        }
        if meta == 0 {
            return true;
        }
        let (first, count) = d.leaf_range(s);
        matches!(meta >> 5, 1 | 3 | 7) && (meta & 31) as u64 + count <= 24 && first + count <= n as u64
    };
    let children = d.imask() == 0
        || d.child_base() as usize > i && d.child_base() as usize + d.imask().count_ones() as usize <= m;
    head && (0..8).all(slot) && children
}

pub enum Verdict {
    Sound(u32),
    Unsound,
    Refused(u32),
}

/// Soundness by its definition, with the deepest level.
pub fn check(record: &[u8], n: usize, work: usize) -> Verdict {
    if record.len() % 80 != 0 {
        return Verdict::Refused(1);
    }
    let m = record.len() / 80;
    if n > MOST_LEAVES || m > MOST_NODES {
        return Verdict::Refused(2);
    }
    if work < m + n {
        return Verdict::Refused(4);
    }
    if !(0..m).all(|i| rule(record, n, i)) {
        return Verdict::Unsound;
    }
    let mut parents = vec![vec![]; m];
    let mut holders = vec![0; n];
    for i in 0..m {
        let d = node(record, i);
        for k in 0..d.imask().count_ones() {
            parents[(d.child_base() + k) as usize].push(i);
        }
        for s in (0..8).filter(|&s| d.is_leaf_slot(s)) {
            let (first, count) = d.leaf_range(s);
            (first..first + count).for_each(|p| holders[p as usize] += 1);
        }
    }
    if !(0..m).all(|v| parents[v].len() == (v != 0) as usize) || !holders.iter().all(|&h| h == 1) {
        return Verdict::Unsound;
    }
    // A parent stands before its child.
    let mut level = vec![0u32; m];
    (1..m).for_each(|v| level[v] = level[parents[v][0]] + 1);
    match level.into_iter().max().unwrap_or(0) {
        deepest if deepest > 31 => Verdict::Unsound,
        deepest => Verdict::Sound(deepest),
    }
}
