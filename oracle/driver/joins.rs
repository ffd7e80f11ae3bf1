//! Stored joins: pairs of trees with what is written of them, and refused calls. The answers are the rules'; each joined tree goes
//! through the published conversion and any-hit.
use crate::corners::{past_bound, relinked, stretched};
use crate::generate::{Boxes, chain};
use crate::join::{Call, MOST_INDEX, Seen};
use crate::join_draws::{CAUSES, drawn, small, spoil};
use crate::join_sizes;
use crate::rng::Rng;
use crate::store::*;
use crate::tree::{BOUND, Tree, leaf, sample_tree};

/// The rays that are run over each joined tree.
const RAYS: usize = 6;

/// A tree of one leaf with this box and this index word.
fn single(ends: [f32; 6], index: u32) -> Tree {
    let nodes = ends.map(f32::to_bits).into_iter().chain([leaf(0)]).collect();
    Tree { nodes, indices: vec![index] }
}

/// The unit box as a tree of one leaf.
fn unit(index: u32) -> Tree {
    single([0.0, 0.0, 0.0, 1.0, 1.0, 1.0], index)
}

/// The same tree with these index words.
fn with_indices(t: &Tree, indices: &[u32]) -> Tree {
    Tree { nodes: t.nodes.clone(), indices: indices.to_vec() }
}

/// T with T, one leaf with one, an empty tree with T, T with an empty one; sums at the most and just over it.
pub fn samples() -> Vec<(Call, u32)> {
    let (t, none) = (sample_tree(), Tree::default());
    vec![
        (Call::new(&t, 2, &t), 0),
        (Call::new(&unit(0), 1, &unit(0)), 0),
        (Call::new(&none, 5, &t), 0),
        (Call::new(&t, 2, &none), 0),
        (Call::new(&none, 2, &none), 0),
        (Call::new(&t, MOST_INDEX, &unit(0)), 0),
        (Call::new(&t, MOST_INDEX, &unit(1)), 13),
    ]
}

/// Panes at the corners with index words at the corners, and each sum at the most and just over it: for every first and second tree,
/// empty ones too. Without index words in the second no number of panes is too great.
fn panes() -> Vec<Call> {
    let t = sample_tree();
    let firsts = [Tree::default(), t.clone()];
    let mut all = vec![];
    for index in [0, 1, 2, 1 << 31, u32::MAX - 1, u32::MAX] {
        let most = MOST_INDEX - index as u64;
        for second in [unit(index), with_indices(&t, &[index, 0]), with_indices(&t, &[0, index])] {
            for panes in [0, most, most + 1, MOST_INDEX, MOST_INDEX + 1, u64::MAX] {
                all.extend(firsts.iter().map(|first| Call::new(first, panes, &second)));
            }
        }
    }
    for panes in [0, 1, MOST_INDEX, MOST_INDEX + 1, u64::MAX] {
        all.extend(firsts.iter().map(|first| Call::new(first, panes, &Tree::default())));
    }
    all
}

/// Single leaves with zeros of either sign at their least and greatest ends, and T beside one.
fn zeros() -> Vec<Call> {
    let (a, b) = (0.0, -0.0);
    let ends = [[a, a, a, a, a, a], [b, b, b, b, b, b], [a, b, a, b, a, b], [-1.0, b, a, b, a, 1.0], [b, -1.0, -1.0, 1.0, b, 1.0]];
    let leaves = ends.map(|e| single(e, 3));
    let mut all: Vec<Call> = leaves.iter().flat_map(|x| leaves.iter().map(|y| Call::new(x, 4, y))).collect();
    all.extend(leaves.iter().flat_map(|x| [Call::new(x, 4, &sample_tree()), Call::new(&sample_tree(), 2, x)]));
    all
}

/// Chains at the longest way down, with a leaf beside them, or nothing: 126 edges and the new one are 127.
pub fn chains() -> Vec<(Call, u32)> {
    let (none, one) = (Tree::default(), unit(0));
    let mut all = vec![];
    for (n, partner, number) in [(127, &one, 0), (128, &one, 7), (128, &none, 0), (129, &none, 7), (129, &one, 7)] {
        let kind = if n == 128 { Boxes::Spread } else { Boxes::Point };
        all.push((Call::new(&chain(n, kind), n as u64, partner), number));
        all.push((Call::new(partner, 1, &chain(n, kind)), number));
    }
    all
}

/// T with one thing changed, as the first tree and as the second.
fn beside_t(changed: &[Tree]) -> Vec<Call> {
    let t = sample_tree();
    changed.iter().flat_map(|c| [Call::new(c, 2, &t), Call::new(&t, 2, c)]).collect()
}

/// T with a NaN or an infinite end, and with its least and greatest ends the wrong way round.
fn odd_boxes() -> Vec<Tree> {
    let mut all = vec![];
    for end in 0..6 {
        for word in [0x7fc0_0000, 0x7f80_0000, 0xff80_0000, 0xffff_ffff] {
            let mut t = sample_tree();
            t.nodes[7 * (end % 3) + end] = word;
            all.push(t);
        }
    }
    for axis in 0..3 {
        let mut t = sample_tree();
        t.nodes[14 + axis] = 1 + t.nodes[17 + axis];
        all.push(t);
    }
    all
}

/// Trees with too few words, too many, or words and no leaves.
fn odd_lengths() -> Vec<Tree> {
    let words = [sample_tree().nodes, vec![0; 14]].concat();
    let lengths = [0, 1, 6, 7, 8, 14, 20, 21, 22, 28, 35];
    let all = (0..4).flat_map(|n| lengths.map(|long| Tree { nodes: words[..long].to_vec(), indices: vec![0; n] }));
    let fits = |t: &Tree| (t.indices.len(), t.nodes.len());
    all.filter(|t| ![(0, 0), (1, 7), (2, 21), (3, 35)].contains(&fits(t))).collect()
}

/// How many times causes are stored in these ways: a chain is long, and is stored once.
fn times(ways: [(u32, usize); 2], each: usize) -> usize {
    if ways.contains(&(7, 2)) { 1 } else { each }
}

/// Each cause alone, in each way, so many times.
fn alone(rng: &mut Rng, each: usize) -> Vec<(Call, u32)> {
    let mut all = vec![];
    for (cause, ways) in CAUSES {
        for way in 0..ways {
            for _ in 0..times([(cause, way); 2], each) {
                let mut c = small(rng);
                spoil(rng, &mut c, cause, way);
                all.push((c, cause));
            }
        }
    }
    all
}

/// A call with two causes, each in one of its ways, of which each alone refuses it.
fn pair(rng: &mut Rng, (first, way): (u32, usize), (second, other): (u32, usize)) -> Call {
    let mut a = small(rng);
    let mut b = a.clone();
    spoil(rng, &mut b, second, other);
    assert_eq!(b.refusal(), second);
    let alike = rng.word();
    spoil(&mut Rng::new(alike), &mut a, first, way);
    spoil(&mut Rng::new(alike), &mut b, first, way);
    assert_eq!(a.refusal(), first);
    b
}

/// Every two causes in every two ways, so within a tree and across, so many times: the one earlier in their order is given.
fn pairs(rng: &mut Rng, each: usize) -> Vec<(Call, u32)> {
    let mut all = vec![];
    for (i, (first, ways)) in CAUSES.into_iter().enumerate() {
        for (second, others) in CAUSES.into_iter().skip(i + 1) {
            for (one, other) in (0..ways).flat_map(|w| (0..others).map(move |o| ((first, w), (second, o)))) {
                for _ in 0..times([one, other], each) {
                    all.push((pair(rng, one, other), first));
                }
            }
        }
    }
    all
}

/// Each slice one word short, alone and with the others, for trees with leaves and without.
fn short() -> Vec<Call> {
    let mut all = vec![];
    for [first, second] in [[sample_tree(), unit(7)], [Tree::default(), unit(7)], [sample_tree(), Tree::default()]] {
        let c = Call::new(&first, 2, &second);
        for set in 1..8 {
            let less = |k: usize| c.lent[k] - (set >> k & 1);
            all.push(Call { lent: [less(0), less(1), less(2)], ..c.clone() });
        }
    }
    all
}

/// The stored cases: those that nothing refuses, and those that are refused.
struct Stored<'a> {
    rng: &'a mut Rng,
    seen: Seen,
    joined: Group,
    refused: Group,
}

impl Stored<'_> {
    /// Stores a call under the number that it must have.
    fn add(&mut self, c: &Call, number: u32) {
        if number == 0 {
            c.agreed(self.rng, RAYS, &mut self.seen);
            self.joined.add(c.case());
        } else {
            assert_eq!(c.refused(), number);
            self.refused.add(c.case());
        }
    }

    /// Stores calls, each under the number that the rules give it, which is one of these.
    fn add_all(&mut self, calls: &[Call], numbers: &[u32]) {
        for c in calls {
            assert!(numbers.contains(&c.refusal()));
            self.add(c, c.refusal());
        }
    }
}

pub fn groups(seed: u64) -> Vec<Group> {
    let mut rng = Rng::new(seed);
    let random: Vec<Call> = (0..70).map(|k| drawn(&mut rng, k)).collect();
    let numbered = [samples(), chains(), alone(&mut rng, 8), pairs(&mut rng, 3)].concat();
    let (joined, refused) = (Group::new(JOINS, 0), Group::new(JOINS, 0));
    let mut all = Stored { rng: &mut rng, seen: Seen::default(), joined, refused };
    numbered.iter().for_each(|(c, number)| all.add(c, *number));
    all.add_all(&random, &[0]);
    all.add_all(&zeros(), &[0]);
    all.add_all(&panes(), &[0, 13]);
    all.add_all(&beside_t(&stretched(BOUND)[..12]), &[0]);
    all.add_all(&beside_t(&stretched(past_bound())), &[6]);
    all.add_all(&beside_t(&relinked()), &[0, 5, 7]);
    all.add_all(&beside_t(&odd_boxes()), &[6]);
    all.add_all(&beside_t(&odd_lengths()), &[1]);
    all.add_all(&short(), &[4]);
    println!("joins: kind {JOINS}, {}", all.seen);
    let Stored { joined, refused, .. } = all;
    vec![joined, refused, join_sizes::group()]
}
