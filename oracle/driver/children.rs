//! Stored children: for each leaf limit and each node of a tree, what the published code gathers and how it fills the slots.
use crate::conversions::some_tree;
use crate::generate::{BOXES, Boxes, Shape, chain, tree};
use crate::rng::Rng;
use crate::seats::{costs, nodes, seats, tables};
use crate::store::*;
use crate::tree::{Tree, sample_tree};
use obvhs::cwbvh::bvh2_to_cwbvh::Bvh2Converter;
use obvhs::seating;

/// Node numbers as bytes, 255 for none.
fn bytes(numbers: &[u32; 8]) -> Vec<u32> {
    let byte = |&x: &u32| match x {
        u32::MAX => 255,
        _ if x < 255 => x as u8,
        _ => panic!("a node number over 254"),
    };
    words_of(&numbers.iter().map(byte).collect::<Vec<_>>())
}

/// The children that the published ordering leaves in slots, those that it seated round by round, and how many searches that took: it makes one
/// more than it has children, to find none left. The rules, written once more, say the same.
fn seated(t: &Tree, v: usize, c: &mut Bvh2Converter, gathered: [u32; 8], count: usize) -> ([u32; 8], [u32; 8], u32) {
    let mut slots = gathered;
    seating::take();
    c.order_children(v, &mut slots, count);
    let noted = seating::take();
    assert_eq!((noted.searches, noted.seated.len()), (count + 1, count));
    let boxes: Vec<_> = gathered[..count].iter().map(|&g| t.aabb(g as usize)).collect();
    let rules = seats(&costs(&t.aabb(v), &boxes), count);
    assert_eq!((&rules.seated, rules.searches), (&noted.seated, noted.searches - 1));
    assert_eq!(rules.by_slot(&gathered), slots);
    (slots, rules.in_order(&gathered), rules.searches as u32)
}

/// What node v of a tree opens into by a converter's decisions: how many children, these as gathered, by slots and in the order seated, and the
/// searches that seat them.
fn opened(t: &Tree, v: usize, c: &mut Bvh2Converter) -> (u32, [[u32; 8]; 3], u32) {
    let (mut children, mut count) = ([u32::MAX; 8], 0);
    c.get_children(v, &mut children, &mut count, 0);
    let (slots, order, searches) = seated(t, v, c, children, count as usize);
    (count, [children, slots, order], searches)
}

/// Sees to it that the published ordering and the rules agree on every node of a tree, and gives how many children they seated.
pub fn agreed(t: &Tree, limit: u32) -> u64 {
    let bvh2 = t.bvh2();
    let mut c = Bvh2Converter::new(&bvh2, true, false);
    c.calculate_cost(limit);
    (0..t.count()).map(|v| opened(t, v, &mut c).0 as u64).sum()
}

/// n, the node words, and for each limit from 0 to 3 and each node how many children it gathers, with 256 times the searches that seat them, the
/// children, its slots, and the children in the order seated.
fn case(t: &Tree) -> Vec<u32> {
    let bvh2 = t.bvh2();
    let mut w = vec![t.indices.len() as u32];
    w.extend(&t.nodes);
    for limit in 0..4 {
        let mut c = Bvh2Converter::new(&bvh2, true, false);
        c.calculate_cost(limit);
        for v in 0..t.count() {
            let (count, lists, searches) = opened(t, v, &mut c);
            w.push(count + 256 * searches);
            lists.iter().for_each(|numbers| w.extend(bytes(numbers)));
        }
    }
    w
}

/// A tree all of whose boxes are about one point, so that their centres are equal or nearly so.
fn concentric(rng: &mut Rng, n: usize) -> Tree {
    let mut t = tree(rng, n, Shape::Uneven, Boxes::Point);
    let centre = rng.pick(&[0.0f32, 1.0, -3.25]);
    for v in 0..t.count() {
        for axis in 0..3 {
            let half = rng.pick(&[0.0, -0.0, 1.0, 0.5, 1e-8, 3.0]);
            t.nodes[7 * v + axis] = (centre - half).to_bits();
            t.nodes[7 * v + axis + 3] = (centre + half).to_bits();
        }
    }
    t
}

pub fn groups(seed: u64) -> Vec<Group> {
    let mut rng = Rng::new(seed);
    let rng = &mut rng;
    let mut g = Group::new(CHILDREN, 0);
    g.add(case(&sample_tree()));
    g.add(case(&chain(128, Boxes::Point)));
    for kind in BOXES {
        g.add(case(&tree(rng, 8, Shape::Balanced, kind)));
        g.add(case(&chain(12, kind)));
    }
    for _ in 0..20 {
        let n = 2 + rng.below(15);
        g.add(case(&concentric(rng, n)));
    }
    for k in 0..330 {
        g.add(case(&some_tree(rng, k)));
    }
    vec![g, tables(rng, 400), nodes(rng, 400)]
}
