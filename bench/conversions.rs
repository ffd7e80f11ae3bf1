//! The whole conversion of a tree as one call, beside the published one.
use crate::calls::{self, Slices};
use crate::convert::{convert, record_of};
use crate::generate::{Boxes, Shape, tree};
use crate::rng::Rng;
use crate::timing::{picked, row};
use crate::tree::Tree;
use crate::trees::{LEAVES, acceptance, large_tree};
use obvhs::cwbvh::bvh2_to_cwbvh::bvh2_to_cwbvh;
use std::hint::black_box;

/// What a conversion of a tree of LEAVES leaves is lent.
pub fn lent(t: &Tree) -> Slices {
    let table = t.nodes.len();
    let bytes = 80 * (LEAVES - 1);
    Slices { decisions: vec![0; table], costs: vec![0.0; table], record: vec![0; bytes], list: vec![0; LEAVES] }
}

/// Ours, by this call, is lent its slices, which are allocated once; the published conversion allocates its own at each call. `checks`
/// are the seconds that our tests of the tree take: the published conversion makes none.
pub fn conversion_by(name: &str, t: &Tree, limit: u32, order: bool, checks: f64, mut ours: impl FnMut(&mut Slices) -> u64) {
    let c = convert(t, limit, order);
    let bvh2 = t.bvh2();
    let mut s = lent(t);
    let nodes = c.record.len() / 80;
    let number = ((c.deepest as usize) << 16 | nodes) as u64;
    let order_name = if order { "on" } else { "off" };
    let (ours, rust) = row(
        &format!("{name}, limit {limit}, order {order_name}, {nodes} nodes"),
        1,
        &mut || assert_eq!(ours(&mut s), number),
        &mut || {
            black_box(bvh2_to_cwbvh(black_box(&bvh2), limit, order, false));
        },
    );
    if ours.is_finite() {
        println!("    without the tree's checks {:.2}", (ours - checks) / rust);
    }
    let published = bvh2_to_cwbvh(&bvh2, limit, order, false);
    assert!(s.record.starts_with(&record_of(&published.nodes)) && s.list == published.primitive_indices);
    assert_eq!(s.decisions, c.decisions);
    assert!(s.costs.iter().map(|x| x.to_bits()).eq(c.costs));
}

/// Each tree's conversion: its name, the tree, limit, ordering, and the seconds of the tests of the tree.
pub fn each_conversion(call: &str, conversion: fn(&str, &Tree, u32, bool, f64)) {
    let drawn = |shape, boxes| tree(&mut Rng::new(7), LEAVES, shape, boxes);
    let trees = [
        ("in order", large_tree(false)),
        ("shuffled", large_tree(true)),
        ("uneven", drawn(Shape::Uneven, Boxes::Spread)),
        // boxes of one point cost nothing, so that every inner node becomes a node
        ("one point", drawn(Shape::Balanced, Boxes::Point)),
    ];
    for (tree, t) in &trees {
        let name = format!("{call}, {tree}");
        if !picked(&name) {
            continue;
        }
        let checks = acceptance(tree, t);
        for (limit, order) in [(1, false), (1, true), (3, false), (3, true)] {
            conversion(&name, t, limit, order, checks);
        }
    }
}

pub fn rows() {
    each_conversion("bvh2_to_cwbvh", |name, t, limit, order, checks| {
        conversion_by(name, t, limit, order, checks, |s| calls::bvh2_to_cwbvh(black_box(&t.nodes), &t.indices, limit, order, s))
    });
}
