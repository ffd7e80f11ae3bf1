//! Two trees joined under a new root: what a join is asked of, and its answer by the rules. The Rust joins nothing, but its
//! conversion, its any-hit and its walk over a tree's own boxes are run on what comes out.
use crate::accept::{MOST_EDGES, MOST_LEAVES, Room, boxed, conversion_refusal, linked, reached_once, sized};
use crate::checks::validated;
use crate::convert::{Converted, bvh_of, convert};
use crate::loss::two_words;
use crate::queries::aimed;
use crate::query;
use crate::record::{Verdict, check};
use crate::rng::Rng;
use crate::tree::{Tree, aabb_words, inner, is_leaf, leaf, target, unsigned_zero};
use crate::walk;
use crate::zeros::entered;
use obvhs::ray::Ray;
use std::fmt::{Display, Formatter, Result};

/// The greatest index word.
pub const MOST_INDEX: u64 = u32::MAX as u64;

/// What a join is asked of.
#[derive(Clone, Default)]
pub struct Call {
    pub first: Tree,
    /// How many panes the first's index words name, as it is told.
    pub panes: u64,
    pub second: Tree,
    /// The words lent as marks, for the joined nodes, and for the joined index words.
    pub lent: [usize; 3],
}

/// A join's answer: its refusal (0: none), how many marks are zero afterwards, and what it writes.
#[derive(Clone, Default, PartialEq, Debug)]
pub struct Joined {
    pub refusal: u32,
    pub zeroed: usize,
    pub tree: Tree,
}

/// What was seen of joined trees: how many there were, and how many had a level over 31; the rays over them, how many of these met a
/// leaf by the tree's own boxes, and how many a position by the record.
#[derive(Default)]
pub struct Seen {
    pub joined: u32,
    pub deep: u32,
    pub rays: u32,
    pub meeting: u32,
    pub met: u32,
}

/// A leaf: its box words, its position, and the index word there.
type Leaf = ([u32; 6], u32, u32);

/// The leaves below node v from left to right.
fn leaves_below(t: &Tree, v: usize) -> Vec<Leaf> {
    let to = target(t.link(v));
    if is_leaf(t.link(v)) {
        let words = t.nodes[7 * v..7 * v + 6].try_into().unwrap();
        return vec![(words, to, t.indices[to as usize])];
    }
    [leaves_below(t, to as usize), leaves_below(t, to as usize + 1)].concat()
}

/// All leaves from left to right.
fn leaves(t: &Tree) -> Vec<Leaf> {
    if t.count() == 0 { vec![] } else { leaves_below(t, 0) }
}

/// How many nodes the longest way down has, by the published count.
fn depth(t: &Tree) -> usize {
    if t.count() == 0 { 0 } else { t.bvh2().depth(0) }
}

/// The positions that a ray meets by the tree's own boxes, in the published walk that goes to the left first.
fn met_by_boxes(t: &Tree, ray: &Ray) -> Vec<u32> {
    let mut nodes = vec![];
    t.bvh2().ray_traverse_recursive(&entered(ray), 0, &mut nodes);
    nodes.into_iter().map(|v| target(t.link(v))).collect()
}

/// The positions that the published any-hit lists, and the rules too.
fn met_by_record(c: &Converted, ray: &Ray) -> Vec<u32> {
    let any = query::any_hit(&bvh_of(&c.record, &c.list), *ray);
    assert_eq!(any, walk::any_hit(&c.record, c.list.len(), ray, c.list.len()));
    any.found
}

/// A tree's record by the published conversion, which has all its index words, and is sound unless a level is over 31.
fn converted(rng: &mut Rng, t: &Tree) -> Converted {
    let n = t.indices.len();
    assert_eq!(conversion_refusal(t, 3, Room::needed(n)), 0);
    let c = convert(t, 1 + rng.below(3) as u32, rng.once_in(2));
    let sorted = |list: &[u32]| {
        let mut list = list.to_vec();
        list.sort();
        list
    };
    assert_eq!(sorted(&c.list), sorted(&t.indices));
    match check(&c.record, n, usize::MAX) {
        Verdict::Sound(level) => assert!(level == c.deepest && validated(&c.record, n) == Some(level)),
        _ => assert!(c.deepest > 31),
    }
    c
}

impl Call {
    /// A join with just the words that it needs.
    pub fn new(first: &Tree, panes: u64, second: &Tree) -> Call {
        Call { first: first.clone(), panes, second: second.clone(), lent: [0; 3] }.with_spare(0)
    }

    /// The same with so many words to spare in each slice.
    pub fn with_spare(self, spare: usize) -> Call {
        Call { lent: self.needed().map(|x| x + spare), ..self }
    }

    fn trees(&self) -> [&Tree; 2] {
        [&self.first, &self.second]
    }

    pub fn leaf_counts(&self) -> [usize; 2] {
        self.trees().map(|t| t.indices.len())
    }

    /// The words needed: a mark for each node and each position of the larger tree, seven for a joined node, one for a leaf.
    pub fn needed(&self) -> [usize; 3] {
        let [n, m] = self.leaf_counts();
        let nodes = |leaves: usize| (2 * leaves).saturating_sub(1);
        [nodes(n.max(m)) + n.max(m), 7 * nodes(n + m), n + m]
    }

    /// The first of causes 1, 2, 4, 5, 6, 7 and 13 that holds, or 0: each is looked for in both trees before the next.
    pub fn refusal(&self) -> u32 {
        let both = |fits: &dyn Fn(&Tree) -> bool| self.trees().into_iter().all(fits);
        let [n, m] = self.leaf_counts();
        // the new root's edge is on every way down
        let edges = if n > 0 && m > 0 { MOST_EDGES - 1 } else { MOST_EDGES };
        if !both(&sized) {
            return 1;
        }
        if n + m > MOST_LEAVES {
            return 2;
        }
        if self.lent.iter().zip(self.needed()).any(|(lent, needed)| *lent < needed) {
            return 4;
        }
        if !both(&linked) {
            return 5;
        }
        if !both(&boxed) {
            return 6;
        }
        if !both(&|t| reached_once(t, edges)) {
            return 7;
        }
        if self.second.indices.iter().all(|&i| self.moved_index(i).is_some()) { 0 } else { 13 }
    }

    /// An index word of the second counted on from the first's panes, if 32 bits hold it.
    fn moved_index(&self, index: u32) -> Option<u32> {
        self.panes.checked_add(index as u64).and_then(|sum| u32::try_from(sum).ok())
    }

    /// The old nodes in their order from node 1 on, each by its tree and its number there: both roots, the rest of the first, the
    /// rest of the second.
    fn order(&self) -> Vec<(usize, usize)> {
        let rest = |which: usize| (1..self.trees()[which].count()).map(move |v| (which, v));
        [(0, 0), (1, 0)].into_iter().chain(rest(0)).chain(rest(1)).collect()
    }

    /// A link of a tree whose nodes have these new numbers: a pair stays a pair, and the second's positions come behind the first's.
    fn new_link(&self, which: usize, numbers: &[usize], link: u32) -> u32 {
        let to = target(link) as usize;
        if is_leaf(link) {
            let before = if which == 0 { 0 } else { self.first.indices.len() };
            return leaf((before + to) as u32);
        }
        assert_eq!(numbers[to] + 1, numbers[to + 1]);
        inner(numbers[to] as u32)
    }

    /// Both trees, neither empty, under a root with the published union of their boxes, its zero ends +0.0.
    fn under_root(&self) -> Vec<u32> {
        let order = self.order();
        let mut numbers = self.trees().map(|t| vec![0; t.count()]);
        order.iter().enumerate().for_each(|(k, &(which, v))| numbers[which][v] = k + 1);
        let root = aabb_words(&self.first.aabb(0).union(&self.second.aabb(0)));
        let mut words: Vec<u32> = root.map(|x| unsigned_zero(f32::from_bits(x)).to_bits()).to_vec();
        words.push(inner(1));
        for (which, v) in order {
            let node = &self.trees()[which].nodes[7 * v..7 * v + 7];
            words.extend(&node[..6]);
            words.push(self.new_link(which, &numbers[which], node[6]));
        }
        words
    }

    /// The joined tree of a call that nothing refuses.
    fn tree(&self) -> Tree {
        let nodes = match self.leaf_counts() {
            [0, _] => self.second.nodes.clone(),
            [_, 0] => self.first.nodes.clone(),
            _ => self.under_root(),
        };
        let moved = self.second.indices.iter().map(|&i| self.moved_index(i).unwrap());
        Tree { nodes, indices: self.first.indices.iter().copied().chain(moved).collect() }
    }

    /// The answer by the rules. Refusals from 5 on leave the marks as a success does.
    pub fn answer(&self) -> Joined {
        let zeroed = self.needed()[0];
        match self.refusal() {
            0 => Joined { refusal: 0, zeroed, tree: self.tree() },
            refusal @ (1 | 2 | 4) => Joined { refusal, ..Default::default() },
            refusal => Joined { refusal, zeroed, ..Default::default() },
        }
    }

    /// The first cause of either tree by itself, if any: the lesser number of the two.
    fn own_cause(&self) -> Option<u32> {
        let causes = self.trees().map(|t| conversion_refusal(t, 0, Room::needed(t.indices.len())));
        causes.into_iter().filter(|&cause| cause != 0).min()
    }

    /// The number of a call that is refused, which is the trees' own unless it is one of the call's.
    pub fn refused(&self) -> u32 {
        let number = self.refusal();
        match (number, self.own_cause()) {
            (1 | 5 | 6, own) => assert_eq!(own, Some(number)),
            (2, own) => assert!(own != Some(1)),
            (4, own) => assert!(own.is_none_or(|cause| cause > 4)),
            (7, own) => assert!(own.is_none_or(|cause| cause == 7)),
            (_, own) => assert_eq!((number, own), (13, None)),
        }
        number
    }

    /// A position of the second behind those of the first.
    fn behind(&self, position: u32) -> u32 {
        self.first.indices.len() as u32 + position
    }

    /// The joined tree has the leaves of both from left to right, and is by one edge deeper than the deeper of two.
    fn same_leaves(&self, t: &Tree) {
        let moved = |(words, p, index): Leaf| (words, self.behind(p), self.moved_index(index).unwrap());
        let expected: Vec<Leaf> = leaves(&self.first).into_iter().chain(leaves(&self.second).into_iter().map(moved)).collect();
        assert_eq!(leaves(t), expected);
        let deeper = depth(&self.first).max(depth(&self.second));
        assert_eq!(depth(t), deeper + (!self.leaf_counts().contains(&0)) as usize);
    }

    /// By the trees' own boxes a ray meets in the joined tree what it meets in the two.
    fn same_meetings(&self, t: &Tree, ray: &Ray) -> bool {
        let moved = met_by_boxes(&self.second, ray).into_iter().map(|p| self.behind(p));
        let expected: Vec<u32> = met_by_boxes(&self.first, ray).into_iter().chain(moved).collect();
        assert_eq!(met_by_boxes(t, ray), expected);
        !expected.is_empty()
    }

    /// The answer of a join that nothing refuses; the published code takes its tree, and so many rays are run over it.
    pub fn agreed(&self, rng: &mut Rng, rays: usize, seen: &mut Seen) -> Joined {
        let answer = self.answer();
        assert_eq!(answer.refusal, 0);
        let t = &answer.tree;
        self.same_leaves(t);
        let c = converted(rng, t);
        seen.joined += 1;
        seen.deep += (c.deepest > 31) as u32;
        for _ in 0..rays {
            let ray = aimed(rng, t, &c.record);
            seen.rays += 1;
            seen.meeting += self.same_meetings(t, &ray) as u32;
            if c.deepest <= 31 {
                seen.met += !met_by_record(&c, &ray).is_empty() as u32;
            }
        }
        answer
    }

    /// Words of the first, its index words, words of the second, its index words, words lent as marks, for nodes, for index words;
    /// the panes in two words; the number, marks that are zero afterwards, words of nodes written, index words written.
    pub fn head(&self, j: &Joined) -> Vec<u32> {
        let sizes = self.trees().into_iter().flat_map(|t| [t.nodes.len(), t.indices.len()]).chain(self.lent);
        let written = [j.zeroed, j.tree.nodes.len(), j.tree.indices.len()];
        let mut w: Vec<u32> = sizes.map(|x| x as u32).chain(two_words(self.panes)).collect();
        w.push(j.refusal);
        w.extend(written.map(|x| x as u32));
        w
    }

    /// These; both trees' words and index words; words and index words written.
    pub fn case(&self) -> Vec<u32> {
        let j = self.answer();
        let mut w = self.head(&j);
        for t in [&self.first, &self.second, &j.tree] {
            w.extend(&t.nodes);
            w.extend(&t.indices);
        }
        w
    }
}

impl Display for Seen {
    fn fmt(&self, f: &mut Formatter) -> Result {
        let Seen { joined, deep, rays, meeting, met } = self;
        write!(f, "{joined} joined trees converted ({deep} with a level over 31); of {rays} rays {meeting} meet a leaf's own box, ")?;
        write!(f, "and {met} a position of the record")
    }
}
