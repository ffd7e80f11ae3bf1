//! Two trees of 32,768 leaves joined by one call, the tests of both trees with it. The published code joins none.
use crate::calls::{self, Joined};
use crate::generate::{Boxes, Shape, tree};
use crate::rng::Rng;
use crate::timing::{alone, picked};
use crate::tree::Tree;
use crate::trees::LEAVES;
use std::hint::black_box;

const HALF: usize = LEAVES / 2;

/// Two trees, each box the half of its parent's, their nodes in the order of a walk.
fn halves() -> [Tree; 2] {
    let some = |seed| tree(&mut Rng::new(seed), HALF, Shape::Balanced, Boxes::Nested);
    let mut in_order = (0..).map(some).filter(|t| t.link(0) == 1);
    [(); 2].map(|_| in_order.next().unwrap())
}

pub fn rows() {
    let name = "join, two trees of 32,768 leaves in order";
    if !picked(name) {
        return;
    }
    let [first, second] = halves();
    let mut s = Joined { marks: vec![0; 3 * HALF], words: vec![0; 7 * (2 * LEAVES - 1)], indices: vec![0; LEAVES] };
    alone(name, 1, &mut || {
        let (first, second) = (black_box(&first), black_box(&second));
        let number = calls::join(&first.nodes, &first.indices, HALF, &second.nodes, &second.indices, &mut s);
        assert_eq!(number, LEAVES as u64);
    });
    let mut marks = vec![0; 3 * LEAVES];
    assert_eq!(calls::accept(&s.words, LEAVES, &mut marks), 0);
    assert!(s.indices.starts_with(&first.indices));
}
