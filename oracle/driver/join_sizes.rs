//! Stored joins by lengths: trees made by a rule, so that they need not be stored, up to as many leaves as are joined and more.
use crate::accept::MOST_LEAVES;
use crate::join::{Call, MOST_INDEX, Seen};
use crate::made::digest;
use crate::rng::Rng;
use crate::store::*;
use crate::tree::{Tree, inner, leaf};

/// The words of a case.
const WIDTH: usize = 29;

/// Words that are lent where there is no room for what is needed.
const FEW: usize = 40;

/// A join of two trees made by the rule: their words and leaves, and the seven words of their roots.
#[derive(Clone)]
struct Ruled {
    words: [usize; 2],
    leaves: [usize; 2],
    roots: [[u32; 7]; 2],
    panes: u64,
    /// The words lent as marks, for nodes, for index words.
    lent: [usize; 3],
}

/// Word i of a tree of n leaves: node v has least ends from -3v and greatest from 3v on, counted in the least float; its children are
/// 2v + 1 and 2v + 2, or from node n - 1 on it is a leaf, the positions rising.
fn word(n: usize, i: usize) -> u32 {
    let (v, c) = (i / 7, i as u32 % 7);
    match c {
        0..3 => 1 << 31 | (3 * v as u32 + c),
        3..6 => 3 * v as u32 + c - 3,
        _ if v + 1 < n => inner(2 * v as u32 + 1),
        _ => leaf((v + 1 - n) as u32),
    }
}

/// The words of n leaves.
fn size(n: usize) -> usize {
    7 * (2 * n).saturating_sub(1)
}

/// A tree of n leaves, so many words of it, with this root. Index words are 2, 7, 12 and so on.
fn tree(words: usize, n: usize, root: &[u32; 7]) -> Tree {
    let nodes = (0..words).map(|i| if i < 7 { root[i] } else { word(n, i) }).collect();
    Tree { nodes, indices: (0..n as u32).map(|p| 5 * p + 2).collect() }
}

impl Ruled {
    /// Trees of n and m leaves, with so many words to spare in each slice, or few words lent.
    fn new(n: usize, m: usize, spare: Option<usize>) -> Ruled {
        let root = |n: usize| [0, 1, 2, 3, 4, 5, 6].map(|i| word(n, i));
        let mut r = Ruled { words: [size(n), size(m)], leaves: [n, m], roots: [root(n), root(m)], panes: 9, lent: [FEW; 3] };
        if let Some(more) = spare {
            r.lent = r.call().needed().map(|x| x + more);
        }
        r
    }

    fn call(&self) -> Call {
        let t = |k: usize| tree(self.words[k], self.leaves[k], &self.roots[k]);
        Call { first: t(0), panes: self.panes, second: t(1), lent: self.lent }
    }

    fn number(&self) -> u32 {
        self.call().refusal()
    }

    /// The head of a stored join; both roots; digests of the words and of the index words that are written.
    fn case(&self) -> Vec<u32> {
        let call = self.call();
        let j = call.answer();
        match j.refusal {
            0 => assert_eq!(j, call.agreed(&mut Rng::new(call.panes), 2, &mut Seen::default())),
            number => assert_eq!(number, call.refused()),
        }
        let mut w = call.head(&j);
        self.roots.iter().for_each(|root| w.extend(root));
        w.extend([digest(j.tree.nodes), digest(j.tree.indices)]);
        w
    }
}

/// The same join with another cause, in each tree where it is a tree's: 1, 5, 6, 7 and 13.
fn with_causes(r: &Ruled, trees: &[usize]) -> Vec<(u32, Ruled)> {
    let mut all = vec![(13, Ruled { panes: MOST_INDEX + 1, ..r.clone() }), (13, Ruled { panes: MOST_INDEX - 1, ..r.clone() })];
    for &k in trees {
        for (cause, i, x) in [(5, 6, 2 << 30), (5, 6, 3 << 30 | 1), (6, 0, 0x7fc0_0000), (6, 5, 0x7f80_0000), (7, 6, inner(0))] {
            let mut s = r.clone();
            s.roots[k][i] = x;
            all.push((cause, s));
        }
        for (more, less) in [(1, 0), (0, 1), (7, 0)] {
            let mut s = r.clone();
            s.words[k] = s.words[k] + more - less;
            all.push((1, s));
        }
    }
    all
}

/// Few words lent: 2 for more leaves than are joined, else 4; and so with whatever else is wrong but a length.
fn without_room() -> Vec<Ruled> {
    let (most, half) = (MOST_LEAVES, MOST_LEAVES / 2);
    let mut all = vec![];
    for (n, m) in [(most - 1, 1), (most, 1), (half, half + 1)] {
        let r = Ruled::new(n, m, None);
        let number = r.number();
        assert_eq!(number, if n + m > most { 2 } else { 4 });
        with_causes(&r, &[0, 1]).iter().for_each(|(cause, s)| assert_eq!(s.number(), *cause.min(&number)));
        all.extend(with_causes(&r, &[0, 1]).into_iter().map(|(_, s)| s));
    }
    for (n, m) in [(most - 1, 1), (1, most - 1), (half, half), (most, 0), (0, most)] {
        all.push(Ruled::new(n, m, None));
        assert_eq!(all.last().unwrap().number(), 4);
    }
    for (n, m) in [(most, 1), (1, most), (half + 1, half), (most + 1, 0), (0, most + 1), (most + 1, 3), (3, most + 1)] {
        all.push(Ruled::new(n, m, None));
        assert_eq!(all.last().unwrap().number(), 2);
    }
    all
}

/// A tree with itself, with all words lent: just as many leaves as are joined, and two more.
fn with_itself() -> Vec<Ruled> {
    let half = MOST_LEAVES / 2;
    let mut all = vec![];
    for (n, number) in [(2, 0), (3, 0), (half, 0), (half + 1, 2)] {
        let r = Ruled::new(n, n, Some(0));
        let greatest = 5 * (n as u64 - 1) + 2;
        let fits = Ruled { panes: MOST_INDEX - greatest, ..r.clone() };
        let over = Ruled { panes: MOST_INDEX + 1 - greatest, ..r.clone() };
        let ends = [(r.clone(), number), (Ruled::new(n, n, Some(3)), number), (fits, number), (over, if number == 0 { 13 } else { 2 })];
        ends.iter().for_each(|(s, number)| assert_eq!(s.number(), *number));
        all.extend(ends.into_iter().map(|(s, _)| s));
        for k in 0..3 {
            let mut short = r.clone();
            short.lent[k] -= 1;
            assert_eq!(short.number(), if number == 0 { 4 } else { 2 });
            all.push(short);
        }
        for (cause, s) in with_causes(&r, &[0]) {
            // both are one tree
            let s = Ruled { words: [s.words[0]; 2], roots: [s.roots[0]; 2], ..s };
            assert_eq!(s.number(), if number == 0 { cause } else { cause.min(number) });
            all.push(s);
        }
    }
    all
}

pub fn group() -> Group {
    let mut g = Group::new(JOIN_SIZES, WIDTH);
    [without_room(), with_itself()].concat().iter().for_each(|r| g.add(r.case()));
    g
}
