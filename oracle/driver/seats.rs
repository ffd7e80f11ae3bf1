//! The slot assignment by the rules: not a search a round, but all pairs in one order, from which each is taken whose child and slot are free. With
//! it, stored answers for any costs and any boxes, which the published code has none for: it fails on a child that gets no slot.
use crate::generate::{BOXES, any_box, corner};
use crate::leaves::word;
use crate::rng::Rng;
use crate::store::*;
use glam::{Vec3A, vec3a};
use obvhs::aabb::Aabb;

type Table = Vec<[f32; 8]>;

pub struct Seats {
    pub seated: Vec<usize>,
    pub searches: usize,
    slot: [usize; 8],
    child: [usize; 8],
}

impl Seats {
    /// The children by slots, and in the order seated.
    pub fn by_slot(&self, children: &[u32; 8]) -> [u32; 8] {
        self.child.map(|c| children.get(c).copied().unwrap_or(u32::MAX))
    }

    pub fn in_order(&self, children: &[u32; 8]) -> [u32; 8] {
        std::array::from_fn(|k| self.seated.get(k).map_or(u32::MAX, |&c| children[c]))
    }
}

/// The pairs that have a cost below the greatest f32, by cost, then child, then slot, as far as child and slot are free: the first n rows.
pub fn seats(table: &Table, n: usize) -> Seats {
    let n = n.min(8);
    let mut pairs: Vec<(f32, usize, usize)> = (0..n).flat_map(|c| (0..8).map(move |s| (table[c][s], c, s))).filter(|p| p.0 < f32::MAX).collect();
    pairs.sort_by(|a, b| a.partial_cmp(b).unwrap());
    let (mut slot, mut child, mut seated) = ([8; 8], [8; 8], vec![]);
    for (_, c, s) in pairs {
        if slot[c] == 8 && child[s] == 8 {
            (slot[c], child[s]) = (s, c);
            seated.push(c);
        }
    }
    let searches = seated.len() + (seated.len() < n) as usize;
    Seats { seated, searches, slot, child }
}

/// What each child costs in each slot: how far its centre lies from its parent's along the slot's direction.
pub fn costs(parent: &Aabb, boxes: &[Aabb]) -> Table {
    let sign = |bit: usize| if bit == 0 { 1.0 } else { -1.0 };
    let p = parent.center();
    let along = |s: usize, v: Vec3A| vec3a(sign(s & 4), sign(s & 2), sign(s & 1)).dot(v);
    boxes.iter().map(|b| std::array::from_fn(|s| along(s, b.center() - p))).collect()
}

/// 0 to 8 as mostly, or a count over 8.
fn some_count(rng: &mut Rng) -> u32 {
    match rng.below(8) {
        0 => rng.pick(&[9, 255, 256, u32::MAX]),
        1 => 8,
        _ => rng.below(9) as u32,
    }
}

/// Costs of one kind: few different ones, so that they tie; some that are never taken; at corners.
fn some_cost(rng: &mut Rng, kind: usize) -> f32 {
    let below = f32::from_bits(f32::MAX.to_bits() - 1);
    match kind {
        0 => rng.pick(&[1.0, 1.0, 2.0, -1.0, 0.0, -0.0]),
        1 => rng.pick(&[f32::NAN, f32::MAX, f32::INFINITY, below, 1.0]),
        2 => rng.pick(&[f32::NAN, f32::MAX, f32::INFINITY]),
        3 => rng.between(-4.0, 4.0),
        4 => rng.pick(&[0.0, -0.0]),
        _ => corner(rng),
    }
}

fn packed(numbers: &[usize; 8]) -> Vec<u32> {
    words_of(&numbers.map(|x| x as u8))
}

/// A count and 64 costs; the slot of each child, the child of each slot and the children seated (8 for none); how many, and 256 times the searches.
pub fn tables(rng: &mut Rng, count: usize) -> Group {
    let mut g = Group::new(COST_TABLES, 72);
    for _ in 0..count {
        let n = some_count(rng);
        let kind = rng.below(7);
        let mixed = rng.once_in(3);
        let table: Table = (0..8)
            .map(|_| {
                let kind = if mixed { rng.below(7) } else { kind };
                std::array::from_fn(|_| some_cost(rng, kind))
            })
            .collect();
        let s = seats(&table, n as usize);
        let mut w = vec![n];
        w.extend(table.iter().flatten().map(|&x| word(x)));
        let order = std::array::from_fn(|k| s.seated.get(k).copied().unwrap_or(8));
        [&s.slot, &s.child, &order].iter().for_each(|numbers| w.extend(packed(numbers)));
        w.push((s.seated.len() + 256 * s.searches) as u32);
        g.add(w);
    }
    g
}

/// Order, count, parent, eight boxes, eight numbers; slots 8, the children in the order seated 8, how many and 256 times the searches.
pub fn nodes(rng: &mut Rng, count: usize) -> Group {
    let mut g = Group::new(SEATED_NODES, 81);
    for k in 0..count {
        let (ordered, n) = (k % 4 != 0, some_count(rng));
        let odd = rng.once_in(4);
        let some_box = |rng: &mut Rng| match odd {
            true => Aabb::new(vec3a(corner(rng), corner(rng), corner(rng)), vec3a(corner(rng), corner(rng), corner(rng))),
            false => any_box(rng),
        };
        let parent = some_box(rng);
        let same = rng.once_in(BOXES.len());
        let first = some_box(rng);
        let boxes: [Aabb; 8] = std::array::from_fn(|_| if same { first } else { some_box(rng) });
        let children: [u32; 8] = std::array::from_fn(|_| if rng.once_in(16) { u32::MAX } else { rng.bits() % 300 });
        let m = (n as usize).min(8);
        let gathered = std::array::from_fn(|i| if i < m { children[i] } else { u32::MAX });
        let mut w = vec![ordered as u32, n];
        w.extend(std::iter::once(&parent).chain(&boxes).flat_map(|b| [b.min, b.max]).flat_map(|v| [v.x, v.y, v.z]).map(word));
        w.extend(children);
        let s = seats(&costs(&parent, &boxes), m);
        let (slots, order, seated, searches) = match ordered {
            true => (s.by_slot(&children), s.in_order(&children), s.seated.len(), s.searches),
            false => (gathered, gathered, m, 0),
        };
        w.extend(slots);
        w.extend(order);
        w.push((seated + 256 * searches) as u32);
        g.add(w);
    }
    g
}
