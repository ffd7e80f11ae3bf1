//! Stored conversions at the corners: coordinates at the bound and just past it, chains of equal boxes, single leaves, and T with other links.
use crate::accept::{Room, conversion_refusal};
use crate::conversions::{case, groups as drawn, refused_case};
use crate::convert::convert;
use crate::generate::{BOXES, Boxes, Shape, chain, tree};
use crate::rng::Rng;
use crate::store::*;
use crate::tree::{BOUND, Tree, inner, leaf, sample_tree};

/// The most record bytes that `replay_conversion` can lend beside a tree of zero words.
pub const RECORD_BYTES: u32 = 12288;

/// Every leaf limit with every order.
pub const SETTINGS: [(u32, bool); 8] =
    [(0, false), (0, true), (1, false), (1, true), (2, false), (2, true), (3, false), (3, true)];

/// The next float above the bound.
pub fn past_bound() -> f32 {
    f32::from_bits(BOUND.to_bits() + 1)
}

/// T with one end of one box, or both ends of one axis of it, moved out to this magnitude, on each side.
pub fn stretched(to: f32) -> Vec<Tree> {
    let mut trees = vec![];
    for v in 0..3 {
        for axis in 0..3 {
            for (ends, x) in [(vec![0], -to), (vec![3], to), (vec![0, 3], -to), (vec![0, 3], to)] {
                let mut t = sample_tree();
                ends.iter().for_each(|end| t.nodes[7 * v + axis + end] = x.to_bits());
                trees.push(t);
            }
        }
    }
    trees
}

/// A chain whose boxes are all the same, and not points.
fn equal_boxes(n: usize) -> Tree {
    let mut t = chain(n, Boxes::Point);
    let ends = [-1.0f32, -0.0, 0.0, 1.0, 0.5, 0.25].map(f32::to_bits);
    t.nodes.chunks_mut(7).for_each(|node| node[..6].copy_from_slice(&ends));
    t
}

/// A chain of points but for one leaf, so that not all costs are zero.
fn one_box(n: usize) -> Tree {
    let mut t = chain(n, Boxes::Point);
    let ends = [0.0f32, 0.0, 0.0, 1.0, 1.0, 1.0].map(f32::to_bits);
    let v = (0..t.count()).find(|&v| t.link(v) == leaf(n as u32 - 1)).unwrap();
    t.nodes[7 * v..7 * v + 6].copy_from_slice(&ends);
    t
}

fn accepted(rng: &mut Rng) -> Group {
    let mut g = Group::new(CONVERSION, 0);
    let mut add = |t: &Tree, limit: u32, order: bool| {
        assert_eq!(conversion_refusal(t, limit, Room::needed(t.indices.len())), 0);
        let c = convert(t, limit, order);
        assert!(c.deepest <= 31);
        g.add(case(t, limit, order, &c));
        c.deepest
    };
    for (k, t) in stretched(BOUND).iter().enumerate() {
        let (limit, order) = SETTINGS[k % 8];
        add(t, limit, order);
    }
    for (limit, order) in SETTINGS {
        assert_eq!(add(&chain(33, Boxes::Point), limit, order), 31);
        add(&equal_boxes(14), limit, order);
        BOXES.iter().for_each(|kind| {
            add(&tree(rng, 1, Shape::Balanced, *kind), limit, order);
        });
    }
    g
}

/// T with another link in one of its nodes.
pub fn relinked() -> Vec<Tree> {
    let most = 0x3fff_ffff;
    let links = [inner(0), inner(1), inner(2), inner(most), leaf(0), leaf(1), leaf(2), leaf(most), 2 << 30, 3 << 30 | 1];
    let with = |v: usize, link: u32| {
        let mut t = sample_tree();
        t.nodes[7 * v + 6] = link;
        t
    };
    (0..3).flat_map(|v| links.map(|link| with(v, link))).collect()
}

/// What n leaves need, or some more of each slice.
fn room(n: usize, more: bool) -> Room {
    let need = Room::needed(n);
    let by = |k: usize| if more { k } else { 0 };
    Room {
        decisions: need.decisions + by(3),
        costs: need.costs + by(2),
        record: need.record + by(7),
        list: need.list + by(1),
    }
}

fn refused() -> Group {
    let mut g = Group::new(CONVERSION_REFUSED, 0);
    let mut add = |t: &Tree, limit: u32, order: bool, number: u32| {
        for more in [false, true] {
            let room = room(t.indices.len(), more);
            match conversion_refusal(t, limit, room) {
                0 => assert!(number == 8 && convert(t, limit, order).deepest > 31),
                first => assert_eq!(first, number),
            }
            g.add(refused_case(t, limit, order, room, number));
        }
    };
    for (k, t) in stretched(past_bound()).iter().enumerate() {
        let (limit, order) = SETTINGS[k % 8];
        add(t, limit, order, 6);
    }
    for (k, t) in relinked().iter().enumerate() {
        let (limit, order) = SETTINGS[k % 8];
        match conversion_refusal(t, limit, room(2, false)) {
            0 => assert!(t.nodes == sample_tree().nodes),
            number => add(t, limit, order, number),
        }
    }
    for (limit, order) in SETTINGS {
        add(&chain(34, Boxes::Point), limit, order, 8);
        assert!(convert(&one_box(36), limit, order).costs.iter().any(|&c| c != 0));
        add(&one_box(36), limit, order, 8);
    }
    // a way down with over 127 edges, of which the published code makes a record with levels over 31
    let long = chain(130, Boxes::Point);
    assert!(convert(&long, 3, true).deepest > 31);
    add(&long, 3, true, 7);
    g
}

/// The drawn groups and these. Without the trees of zero words whose slices the replay can't lend: those of 65,536 leaves and more with all that they need.
pub fn groups(seed: u64) -> Vec<Group> {
    let mut all = drawn(seed);
    all.iter_mut()
        .filter(|g| g.kind == CONVERSION_SIZES)
        .for_each(|g| g.cases.retain(|c| c[4] <= RECORD_BYTES));
    all.extend([accepted(&mut Rng::new(seed)), refused()]);
    all
}
