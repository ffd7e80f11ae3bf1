//! What conversion does to a tree, part by part: acceptance, cost tables, ordering.
use crate::calls;
use crate::convert::convert;
use crate::generate::{Boxes, Shape, tree};
use crate::rng::Rng;
use crate::timing::{alone, row};
use crate::tree::Tree;
use obvhs::bvh2::Bvh2;
use obvhs::cwbvh::bvh2_to_cwbvh::{Bvh2Converter, DecisionKind};
use std::hint::black_box;

pub const LEAVES: usize = 65536;
const LIMIT: u32 = 3;

/// A tree of as many leaves as there may be, each box the half of its parent's, its nodes in the order of a walk or shuffled.
pub fn large_tree(shuffled: bool) -> Tree {
    let some = |seed| tree(&mut Rng::new(seed), LEAVES, Shape::Balanced, Boxes::Nested);
    // the generator draws whether it shuffles; if not, the root's children come next
    (0..).map(some).find(|t| (t.link(0) != 1) == shuffled).unwrap()
}

pub fn acceptance(name: &str, t: &Tree) -> f64 {
    let mut marks = vec![0; 3 * LEAVES];
    alone(&format!("acceptance, 65,536 leaves {name}"), 1, &mut || {
        assert_eq!(calls::accept(black_box(&t.nodes), LEAVES, &mut marks), 0)
    })
}

fn cost_tables(name: &str, t: &Tree, bvh2: &Bvh2) {
    let (mut decisions, mut costs) = (vec![0u32; t.nodes.len()], vec![0f32; t.nodes.len()]);
    let mut converter = Bvh2Converter::new(bvh2, true, false);
    row(
        &format!("calculate_cost, 65,536 leaves {name}"),
        1,
        &mut || assert_eq!(calls::costs(black_box(&t.nodes), LIMIT, &mut decisions, &mut costs), LEAVES as u32),
        &mut || {
            converter.calculate_cost(black_box(LIMIT));
            black_box(&mut converter.decisions);
        },
    );
    let c = convert(t, LIMIT, true);
    assert_eq!(decisions, c.decisions);
    assert!(costs.iter().map(|x| x.to_bits()).eq(c.costs));
    assert!(costs.iter().zip(&converter.decisions).all(|(x, d)| x.to_bits() == d.cost.to_bits()));
}

/// The nodes that become wide nodes, each with how many children it has and eight words for them.
fn gathered(converter: &mut Bvh2Converter) -> Vec<u32> {
    let mut cases = vec![];
    let mut due = vec![0u32];
    while let Some(v) = due.pop() {
        let (mut children, mut count) = ([u32::MAX; 8], 0);
        converter.get_children(v as usize, &mut children, &mut count, 0);
        cases.extend([v, count]);
        cases.extend(children);
        let inner = |&c: &u32| converter.decisions[7 * c as usize].kind == DecisionKind::INTERNAL;
        due.extend(children[..count as usize].iter().copied().filter(inner));
    }
    cases
}

fn ordering(t: &Tree, bvh2: &Bvh2) {
    let mut converter = Bvh2Converter::new(bvh2, true, false);
    converter.calculate_cost(LIMIT);
    let cases = gathered(&mut converter);
    let cases = &cases[..cases.len().min(10 * 1024)];
    let count = cases.len() / 10;
    let (mut a, mut b) = (vec![0u32; 8 * count], vec![0u32; 8 * count]);
    row(
        "order_children, a node",
        count,
        &mut || assert_eq!(calls::orders(black_box(&t.nodes), cases, &mut a), count),
        &mut || {
            for (case, out) in black_box(cases).chunks_exact(10).zip(b.chunks_exact_mut(8)) {
                let mut children: [u32; 8] = case[2..].try_into().unwrap();
                converter.order_children(case[0] as usize, &mut children, case[1] as usize);
                out.copy_from_slice(&children);
            }
            black_box(&mut b);
        },
    );
    assert_eq!(a, b);
}

pub fn rows() {
    let (ordered, shuffled) = (large_tree(false), large_tree(true));
    let (ordered_bvh2, shuffled_bvh2) = (ordered.bvh2(), shuffled.bvh2());
    cost_tables("in order", &ordered, &ordered_bvh2);
    cost_tables("shuffled", &shuffled, &shuffled_bvh2);
    ordering(&ordered, &ordered_bvh2);
}
