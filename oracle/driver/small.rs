//! Small records, one for each way in which the published `validate` and the record check can differ, and some on which they agree.

/// A node at the origin with least scales: imask, child base, primitive base, and the metas of its first slots.
type Node<'a> = (u8, u32, u32, &'a [u8]);

const EMPTY: Node = (0, 0, 0, &[]);

pub struct Small {
    pub what: &'static str,
    pub n: usize,
    pub record: Vec<u8>,
    /// Whether `validate` ends.
    pub ends: bool,
}

impl Small {
    /// The working words that its check needs.
    pub fn words(&self) -> usize {
        self.record.len() / 80 + self.n
    }
}

fn bytes(nodes: &[Node]) -> Vec<u8> {
    let mut out = vec![];
    for (imask, child, primitive, metas) in nodes {
        let mut d = [0u8; 80];
        d[12..15].fill(53);
        d[15] = *imask;
        d[16..20].copy_from_slice(&child.to_le_bytes());
        d[20..24].copy_from_slice(&primitive.to_le_bytes());
        d[24..24 + metas.len()].copy_from_slice(metas);
        out.extend(d);
    }
    out
}

fn small(what: &'static str, n: usize, nodes: &[Node]) -> Small {
    Small { what, n, record: bytes(nodes), ends: true }
}

/// A record of one node with the metas of its first slots.
fn one(what: &'static str, n: usize, metas: &[u8]) -> Small {
    small(what, n, &[(0, 1, 0, metas)])
}

/// An empty node with some of its first bytes replaced.
fn with(what: &'static str, at: usize, bytes: &[u8]) -> Small {
    let mut s = small(what, 0, &[EMPTY]);
    s.record[at..at + bytes.len()].copy_from_slice(bytes);
    s
}

/// Repeats, which the sets of `validate` forget.
fn repeats() -> Vec<Small> {
    vec![
        // One pane held at two places of the leaf ranges: one position in two of them.
        one("a position in the leaf ranges of two slots", 1, &[0x20, 0x20]),
        small("a position in the leaf ranges of two nodes", 1, &[(1, 1, 0, &[56, 0x20]), (0, 2, 0, &[0x20])]),
        one("leaf ranges 0, 1 and 1, 2", 3, &[0x60, 0x61]),
        // One node reached twice; in the second of these a pane with it.
        small("a node in two child ranges", 0, &[(3, 1, 0, &[56, 57]), (1, 2, 0, &[56]), EMPTY]),
        small("the same with a leaf in it", 1, &[(3, 1, 0, &[56, 57]), (1, 2, 0, &[56]), (0, 3, 0, &[0x20])]),
        small("a node in two slots", 0, &[(3, 1, 0, &[56, 56]), EMPTY]),
        // One pane taken twice while another is lost: as many different positions as there are, one of them past the end.
        one("position 0 twice, 1 lost, 2 past the end", 2, &[0x20, 0x20, 0x22]),
        small("the same over two nodes", 2, &[(1, 1, 0, &[56, 0x20]), (0, 2, 0, &[0x20, 0x22])]),
    ]
}

/// What else passes `validate` and is unsound.
fn others() -> Vec<Small> {
    let threes = &[0xe0, 0xe3, 0xe6, 0xe9, 0xec, 0xef, 0xf2, 0x75];
    vec![
        one("code 000 with low bits", 0, &[0x01]),
        one("code 010", 2, &[0x40, 0x20]),
        one("code 100", 3, &[0x80, 0x60]),
        one("code 101", 3, &[0xa0, 0x21]),
        one("code 110", 3, &[0xc0, 0x20]),
        small("low five plus count 25", 25, &[(1, 1, 0, &[56, 0x77]), (0, 2, 0, threes)]),
        small("a start past 32 bits", 1, &[(0, 0, u32::MAX, &[0x21])]),
        small("meta 56 in slot 1", 0, &[(2, 1, 0, &[0, 56]), EMPTY]),
        small("an inner meta with top bits 000", 0, &[(1, 1, 0, &[0x18]), EMPTY]),
        small("an inner meta with top bits 111", 0, &[(1, 1, 0, &[0xf8]), EMPTY]),
        small("an imask bit on an empty slot", 0, &[(1, 0, 0, &[])]),
        with("e byte 52", 12, &[52]),
        with("e byte 162", 12, &[162]),
        with("p the next float above 2^40", 0, &[1, 0, 0x80, 0x53]),
        small("a child with a lower number than its parent", 0, &[(1, 2, 0, &[56]), EMPTY, (1, 1, 0, &[56])]),
        Small { ends: false, ..small("a node that is its own child", 0, &[(1, 0, 0, &[56])]) },
    ]
}

/// Unsound records that pass `validate`, or on which it never ends.
pub fn laxer() -> Vec<Small> {
    [repeats(), others()].into_iter().flatten().collect()
}

/// Records on which the two agree.
pub fn agreed() -> Vec<Small> {
    let threes = &[0xe0, 0xe3, 0xe6, 0xe9, 0xec, 0xef, 0xf2, 0x35];
    vec![
        small("no node", 0, &[]),
        one("one leaf", 1, &[0x20]),
        small("low five plus count 24", 24, &[(1, 1, 0, &[56, 0x76]), (0, 2, 0, threes)]),
        small("a child in the last slot", 0, &[(0x80, 1, 0, &[0, 0, 0, 0, 0, 0, 0, 63]), EMPTY]),
        with("e byte 161", 14, &[161]),
        with("p -2^40", 4, &[0, 0, 0x80, 0xd3]),
        one("a position lost", 2, &[0x20]),
        one("a position past the end", 1, &[0x60]),
        small("a node lost", 0, &[EMPTY, EMPTY]),
        small("a child past the end", 0, &[(1, 1, 0, &[56])]),
    ]
}

pub fn records() -> Vec<Small> {
    [laxer(), agreed()].into_iter().flatten().collect()
}
