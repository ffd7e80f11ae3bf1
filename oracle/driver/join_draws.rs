//! Joins drawn at random: those that nothing refuses, and those with causes of refusal.
use crate::conversions::{damage, some_tree};
use crate::generate::{BOXES, Boxes, SHAPES, Shape, tree};
use crate::join::{Call, MOST_INDEX};
use crate::rng::Rng;
use crate::tree::Tree;

/// Causes in their order with the ways to meet them; 2 takes many leaves.
pub const CAUSES: [(u32, usize); 6] = [(1, 2), (4, 3), (5, 2), (6, 2), (7, 3), (13, 2)];

/// How many panes the first has: as many as it names or has leaves, or none, or any, or as many as the second leaves room for.
pub fn some_panes(rng: &mut Rng, first: &Tree, second: &Tree) -> u64 {
    let greatest = |t: &Tree| t.indices.iter().max().map_or(0, |x| *x as u64);
    let most = MOST_INDEX - greatest(second);
    let any = rng.bits() as u64;
    let named = greatest(first) + 1;
    rng.pick(&[named, named, named, first.indices.len() as u64, 0, any, most, most - most.min(1)]).min(most)
}

/// Two trees of every shape and kind of box, at times one without leaves; nothing refuses their join.
pub fn drawn(rng: &mut Rng, k: usize) -> Call {
    let mut pair = [some_tree(rng, k), some_tree(rng, k / 3 + 5)];
    if rng.once_in(8) {
        pair[rng.below(2)] = Tree::default();
    }
    let [first, second] = pair;
    Call::new(&first, some_panes(rng, &first, &second), &second)
}

/// A call of small trees, each with more than one leaf, that nothing refuses.
pub fn small(rng: &mut Rng) -> Call {
    let mut one = || {
        let n = 2 + rng.below(6);
        let (shape, kind) = (rng.pick(&SHAPES), rng.pick(&BOXES));
        tree(rng, n, shape, kind)
    };
    let (first, second) = (one(), one());
    let panes = rng.below(9) as u64;
    Call::new(&first, panes, &second).with_spare(rng.pick(&[0, 0, 1, 4]))
}

/// Makes a call of trees with more than one leaf meet a cause in one of its ways. The last way of 7 is a tree that is too deep for the
/// new edge alone.
pub fn spoil(rng: &mut Rng, c: &mut Call, cause: u32, way: usize) {
    let needed = c.needed();
    match (cause, way) {
        (4, _) => c.lent[way] = rng.pick(&[0, needed[way] - 1]),
        (7, 2) => {
            let shape = rng.pick(&[Shape::LeftChain, Shape::RightChain, Shape::Zigzag]);
            let deep = tree(rng, 128, shape, Boxes::Spread);
            *(if rng.once_in(2) { &mut c.first } else { &mut c.second }) = deep;
            c.lent = c.needed();
        }
        (13, 0) => c.panes = rng.pick(&[MOST_INDEX + 1, u64::MAX]),
        (13, _) => {
            let p = rng.below(c.second.indices.len());
            c.panes = 1 + rng.bits() as u64 / 2;
            c.second.indices[p] = (MOST_INDEX + 1 - c.panes) as u32;
        }
        _ => damage(rng, if way == 0 { &mut c.first } else { &mut c.second }, cause),
    }
}
