//! The record check beside the published `validate`, without its box comparisons (oracle/README.md).
use crate::calls;
use crate::convert::{Converted, bvh_of, convert};
use crate::generate::{Boxes, Shape, tree};
use crate::rng::Rng;
use crate::timing::row;
use crate::trees::{LEAVES, large_tree};
use obvhs::Boundable;
use obvhs::aabb::Aabb;
use std::hint::black_box;

struct Pane;

impl Boundable for Pane {
    fn aabb(&self) -> Aabb {
        Aabb::LARGEST
    }
}

fn check(c: &Converted) {
    let m = c.record.len() / 80;
    let n = c.list.len();
    let bvh = bvh_of(&c.record, &c.list);
    let panes: Vec<Pane> = (0..n).map(|_| Pane).collect();
    let mut work = vec![0u32; m + n];
    row(
        &format!("record check (validate), {m} nodes"),
        1,
        &mut || assert_eq!(calls::validate(black_box(&c.record), n, &mut work), c.deepest as u64),
        &mut || assert_eq!(black_box(&bvh).validate(&panes, true).max_depth, c.deepest),
    );
}

pub fn rows() {
    // boxes of one point cost nothing, so that every inner node of the tree becomes a node: as many as there may be
    check(&convert(&tree(&mut Rng::new(7), LEAVES, Shape::Balanced, Boxes::Point), 3, false));
    check(&convert(&large_tree(false), 3, true));
}
