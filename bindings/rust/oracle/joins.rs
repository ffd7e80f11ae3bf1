//! Joins of the package against the driver's own, whose joined trees go through the published conversion and any-hit; against
//! the rules where a tree, its depth or an index word is refused.
use crate::join::{Call, Joined, Seen};
use crate::join_draws::{CAUSES, drawn, small, spoil};
use crate::rng::Rng;

/// The rays that are run over each joined tree.
const RAYS: usize = 2;

/// The package refuses with the number expected, or writes the tree expected.
fn same(c: &Call, expected: &Joined) {
    let [first, second] = [&c.first, &c.second].map(|t| funnelcress::Tree::from_words(t.nodes.clone(), t.indices.clone()));
    match first.join(c.panes as usize, &second) {
        Ok(t) => assert!(expected.refusal == 0 && t.words() == expected.tree.nodes && t.indices() == expected.tree.indices),
        Err(refusal) => assert_eq!(refusal.number(), expected.refusal),
    }
}

/// A join that nothing refuses; one with a cause of refusal, and the same with a sooner one too. The package lends enough, so
/// that 4 is none of them.
pub fn same_joins(rng: &mut Rng, k: usize, seen: &mut Seen) -> usize {
    let call = drawn(rng, k);
    same(&call, &call.agreed(rng, RAYS, seen));
    let mut causes: Vec<(u32, usize)> = CAUSES.into_iter().filter(|(cause, _)| *cause != 4).collect();
    rng.shuffle(&mut causes);
    causes[..2].sort();
    let mut hurt = small(rng);
    for (cause, ways) in [causes[1], causes[0]] {
        let way = rng.below(ways);
        spoil(rng, &mut hurt, cause, way);
        assert_eq!(hurt.refused(), cause);
        same(&hurt, &hurt.answer());
    }
    2
}
