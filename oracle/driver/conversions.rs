//! Stored conversions: accepted trees with all that the published conversion writes, and refused ones with their cause.
use crate::accept::{MOST_LEAVES, Room, conversion_refusal};
use crate::convert::{Converted, convert};
use crate::generate::{BOXES, Boxes, SHAPES, Shape, chain, tree};
use crate::rng::Rng;
use crate::store::*;
use crate::tree::{BOUND, Tree, inner, leaf, sample_tree};

/// n, limit, order, record nodes, deepest level; then node words, indices, decision words, cost bits, record, list.
pub fn case(t: &Tree, limit: u32, order: bool, c: &Converted) -> Vec<u32> {
    let n = t.indices.len() as u32;
    let mut w = vec![n, limit, order as u32, c.record.len() as u32 / 80, c.deepest];
    w.extend(&t.nodes);
    w.extend(&t.indices);
    w.extend(&c.decisions);
    w.extend(&c.costs);
    w.extend(words_of(&c.record));
    w.extend(&c.list);
    w
}

/// A tree to convert: no leaf, one, few or some dozen, of every shape and kind of box.
pub fn some_tree(rng: &mut Rng, k: usize) -> Tree {
    let kind = BOXES[k % BOXES.len()];
    let shape = SHAPES[k / BOXES.len() % SHAPES.len()];
    let n = match rng.below(10) {
        0 => 1 + rng.below(2),
        1..5 => 2 + rng.below(9),
        5..9 => 8 + rng.below(12),
        _ => 20 + rng.below(25),
    };
    let mut t = tree(rng, n, shape, kind);
    if rng.once_in(8) {
        t.indices.iter_mut().for_each(|x| *x = rng.bits());
    }
    t
}

fn accepted(rng: &mut Rng, count: usize) -> Group {
    let mut g = Group::new(CONVERSION, 0);
    let mut add = |t: &Tree, limit: u32, order: bool| {
        assert_eq!(conversion_refusal(t, limit, Room::needed(t.indices.len())), 0);
        let c = convert(t, limit, order);
        if c.deepest <= 31 {
            g.add(case(t, limit, order, &c));
        }
    };
    for k in 0..8 {
        add(&Tree::default(), k / 2, k % 2 == 1);
        add(&sample_tree(), k / 2, k % 2 == 1);
        add(&some_tree(rng, k as usize), k / 2, k % 2 == 1);
    }
    for k in 0..count {
        let t = some_tree(rng, k);
        add(&t, rng.below(4) as u32, rng.once_in(2));
    }
    for kind in BOXES {
        add(&tree(rng, 12, Shape::Uneven, kind), 3, true);
    }
    add(&chain(33, Boxes::Point), 3, false);
    add(&chain(128, Boxes::Spread), 3, true);
    add(&tree(rng, 100, Shape::Balanced, Boxes::Spread), 2, true);
    g
}

/// Lengths in words (the record's in bytes), limit, order, number; then node words and indices.
pub fn refused_case(t: &Tree, limit: u32, order: bool, room: Room, number: u32) -> Vec<u32> {
    let mut w = sizes_case(t.nodes.len(), t.indices.len(), limit, order, room, number);
    w.extend(&t.nodes);
    w.extend(&t.indices);
    w
}

/// The first nine words of a refused case.
pub fn sizes_case(nodes: usize, indices: usize, limit: u32, order: bool, room: Room, number: u32) -> Vec<u32> {
    let lengths = [nodes, indices, room.decisions, room.costs, room.record, room.list];
    let mut w: Vec<u32> = lengths.iter().map(|&x| x as u32).collect();
    w.extend([limit, order as u32, number]);
    w
}

/// Damages a tree so that it meets a cause, perhaps with a later one beside it.
pub fn damage(rng: &mut Rng, t: &mut Tree, cause: u32) {
    let count = t.count();
    let v = rng.below(count);
    match cause {
        1 => match rng.below(4) {
            0 => t.nodes.truncate(t.nodes.len() - 1),
            1 => t.nodes.push(0),
            2 => t.indices.push(0),
            _ => t.indices.truncate(t.indices.len() - 1),
        },
        5 => {
            let n = t.indices.len() as u32;
            t.nodes[7 * v + 6] = match rng.below(6) {
                0 => 2 << 30,
                1 => 3 << 30 | rng.bits(),
                2 => inner(count as u32 - 1),
                3 => inner(count as u32 + rng.below(5) as u32),
                4 => leaf(n),
                _ => leaf(0x3fff_ffff),
            };
        }
        6 => {
            let end = rng.below(6);
            let past = f32::from_bits(BOUND.to_bits() + 1);
            t.nodes[7 * v + end] = match rng.below(5) {
                0 => f32::INFINITY.to_bits(),
                1 => 0xff80_0000,
                2 => 0x7fc0_0000,
                3 if end < 3 => (-past).to_bits(),
                3 => past.to_bits(),
                _ => {
                    // min over max by the least step
                    let lo = f32::from_bits(t.nodes[7 * v + end % 3]);
                    let (a, b) = (7 * v + end % 3, 7 * v + end % 3 + 3);
                    t.nodes[b] = lo.to_bits();
                    t.nodes[a] = if lo >= 0.0 { lo.abs().to_bits() + 1 } else { lo.to_bits() - 1 };
                    t.nodes[7 * v + end]
                }
            };
        }
        7 => {
            let n = t.indices.len() as u32;
            let inners: Vec<usize> = (0..count).filter(|&v| t.link(v) >> 30 == 0).collect();
            let leaves: Vec<usize> = (0..count).filter(|&v| t.link(v) >> 30 == 1).collect();
            match rng.below(4) {
                // a position held twice
                0 if n > 1 => {
                    let (a, b) = (leaves[0], leaves[1 + rng.below(leaves.len() - 1)]);
                    t.nodes[7 * a + 6] = t.nodes[7 * b + 6];
                }
                // a pair shared, or a cycle, or the root as a child
                1 if inners.len() > 1 => {
                    let (a, b) = (rng.pick(&inners), rng.pick(&inners));
                    let other = if a == b { inner(0) } else { t.nodes[7 * b + 6] };
                    t.nodes[7 * a + 6] = other;
                }
                2 if n > 1 => t.nodes[7 * rng.pick(&inners) + 6] = inner(0),
                // nodes cut off
                _ if n > 1 => t.nodes[6] = leaf(0),
                _ => *t = chain(129, Boxes::Point),
            }
        }
        _ => {}
    }
}

/// A call of the conversion: the tree, the leaf limit, and the lengths of the other slices.
pub struct Call {
    pub tree: Tree,
    pub limit: u32,
    pub room: Room,
}

/// A call that is not refused.
pub fn call(rng: &mut Rng, k: usize) -> Call {
    let n = 2 + rng.below(9);
    let tree = tree(rng, n, SHAPES[k % SHAPES.len()], BOXES[k % BOXES.len()]);
    let mut room = Room::needed(n);
    room.decisions += rng.below(4);
    room.record += rng.below(100);
    Call { tree, limit: rng.below(4) as u32, room }
}

impl Call {
    /// Makes the call meet a cause, but 2.
    pub fn spoil(&mut self, rng: &mut Rng, cause: u32) {
        let n = self.tree.indices.len();
        match cause {
            3 => self.limit = rng.pick(&[4, 5, 255, u32::MAX]),
            4 => {
                let need = Room::needed(n);
                match rng.below(4) {
                    0 => self.room.decisions = need.decisions - 1 - rng.below(3),
                    1 => self.room.costs = need.costs - 1,
                    2 => self.room.record = need.record - 1 - rng.below(80),
                    _ => self.room.list = need.list - 1,
                }
            }
            8 => {
                self.tree = chain(34 + rng.below(20), Boxes::Point);
                self.room = Room::needed(self.tree.indices.len());
            }
            _ => damage(rng, &mut self.tree, cause),
        }
    }

    /// The first cause, or 0.
    fn number(&self, order: bool) -> u32 {
        match conversion_refusal(&self.tree, self.limit, self.room) {
            0 if convert(&self.tree, self.limit, order).deepest > 31 => 8,
            number => number,
        }
    }
}

/// Calls with one cause, so many of each, and calls with two, of which the lesser must be given.
fn refused(rng: &mut Rng, each: usize, pairs: usize) -> Group {
    let mut g = Group::new(CONVERSION_REFUSED, 0);
    let causes = [1, 3, 4, 5, 6, 7, 8];
    let mut add = |c: &Call, order: bool, number: u32| {
        assert_eq!(c.number(order), number);
        g.add(refused_case(&c.tree, c.limit, order, c.room, number));
    };
    for k in 0..each {
        for cause in causes {
            let mut c = call(rng, k);
            c.spoil(rng, cause);
            add(&c, rng.once_in(2), cause);
        }
    }
    for k in 0..pairs {
        for also in causes {
            // no record has a level where cause 7 holds
            for cause in causes.into_iter().filter(|&x| x < also && (x, also) != (7, 8)) {
                let (mut c, order) = (call(rng, k), rng.once_in(2));
                c.spoil(rng, also);
                assert_eq!(c.number(order), also);
                c.spoil(rng, cause);
                add(&c, order, cause);
            }
        }
    }
    let tree = chain(129, Boxes::Point);
    add(&Call { tree, limit: 3, room: Room::needed(129) }, false, 7);
    g
}

/// Refusals by lengths alone, where the words of the tree are all zero.
fn sizes() -> Group {
    let mut g = Group::new(CONVERSION_SIZES, 9);
    let none = Room { decisions: 0, costs: 0, record: 0, list: 0 };
    for n in [0, 1, 2, 3, 100, MOST_LEAVES, MOST_LEAVES + 1] {
        let words = if n == 0 { 0 } else { 7 * (2 * n - 1) };
        let calls = [(words, 4, none), (words, 3, none), (words + 7, 3, none), (words, 4, Room::needed(n))];
        for (nodes, limit, room) in calls {
            let t = Tree { nodes: vec![0; nodes], indices: vec![0; n] };
            if let number @ 1..=4 = conversion_refusal(&t, limit, room) {
                g.add(sizes_case(nodes, n, limit, false, room, number));
            }
        }
    }
    g
}

pub fn groups(seed: u64) -> Vec<Group> {
    let mut rng = Rng::new(seed);
    vec![accepted(&mut rng, 220), refused(&mut rng, 20, 4), sizes()]
}
