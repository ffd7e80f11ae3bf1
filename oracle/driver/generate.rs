//! Trees and rays of many kinds, and floats at the corners.
use crate::rng::Rng;
use crate::tree::{BOUND, Tree, inner, leaf};
use glam::{Vec3A, vec3a};
use obvhs::aabb::Aabb;
use obvhs::ray::Ray;

#[derive(Clone, Copy, PartialEq, Debug)]
pub enum Shape {
    Balanced,
    Uneven,
    LeftChain,
    RightChain,
    Zigzag,
}

pub const SHAPES: [Shape; 5] = [Shape::Balanced, Shape::Uneven, Shape::LeftChain, Shape::RightChain, Shape::Zigzag];

/// How leaf boxes are chosen, and how the boxes above them.
#[derive(Clone, Copy, PartialEq, Debug)]
pub enum Boxes {
    /// Within ±10, extents to 3, parents the union.
    Spread,
    /// Small whole coordinates: many equal areas and costs.
    Grid,
    /// Each box within its parent, the halves of a cut.
    Nested,
    /// All boxes one point.
    Point,
    /// Coordinates to ±2^40, the bound itself included.
    Huge,
    /// Extents that are subnormal or a few units in the last place.
    Tiny,
    /// Zero extent on some axes.
    Flat,
    /// Magnitudes from 2^-140 to 2^40.
    Scales,
    /// Zeros of both signs and a few other values.
    Zeros,
    /// Parents' boxes drawn by themselves, so children lie outside.
    Outside,
    /// Any bits within the bound, parents drawn by themselves.
    Bits,
}

pub const BOXES: [Boxes; 11] = [
    Boxes::Spread,
    Boxes::Grid,
    Boxes::Nested,
    Boxes::Point,
    Boxes::Huge,
    Boxes::Tiny,
    Boxes::Flat,
    Boxes::Scales,
    Boxes::Zeros,
    Boxes::Outside,
    Boxes::Bits,
];

/// Any float within ±2^40, by its bits.
pub fn bounded_bits(rng: &mut Rng) -> f32 {
    let top = BOUND.to_bits();
    f32::from_bits((rng.bits() % (top + 1)) | (rng.bits() & 0x8000_0000))
}

fn sign(rng: &mut Rng) -> f32 {
    if rng.once_in(2) { -1.0 } else { 1.0 }
}

/// A magnitude from 2^a to 2^b.
fn scaled(rng: &mut Rng, a: i32, b: i32) -> f32 {
    let k = a + rng.below((b - a + 1) as usize) as i32;
    let x = (1.0 + rng.unit() as f64) * 2f64.powi(k);
    sign(rng) * (x.min(BOUND as f64)) as f32
}

/// A coordinate and an extent on one axis.
fn span(rng: &mut Rng, kind: Boxes, point: f32) -> (f32, f32) {
    let pair = match kind {
        Boxes::Spread | Boxes::Nested | Boxes::Outside => {
            let lo = rng.between(-10.0, 10.0);
            (lo, lo + rng.between(0.0, 3.0))
        }
        Boxes::Grid => {
            let lo = rng.below(9) as f32 - 4.0;
            (lo, lo + rng.below(3) as f32)
        }
        Boxes::Point => (point, point),
        Boxes::Huge => match rng.below(4) {
            0 => (-BOUND, BOUND),
            1 => (rng.between(-BOUND, BOUND), BOUND),
            2 => (-BOUND, rng.between(-BOUND, BOUND)),
            _ => (rng.between(-BOUND, BOUND), rng.between(-BOUND, BOUND)),
        },
        Boxes::Tiny => {
            let lo: f32 = rng.pick(&[0.0, -0.0, 1.0, 1e-30, 1e-38, 1e-42, -1.0, -1e-40]);
            let ulps = rng.below(600) as u32;
            if lo == 0.0 {
                (lo, f32::from_bits(ulps * rng.pick(&[1, 1, 1000, 100_000])))
            } else if lo > 0.0 {
                (lo, f32::from_bits(lo.to_bits() + ulps))
            } else {
                (lo, f32::from_bits(lo.to_bits() - ulps.min(lo.to_bits() & 0x7fff_ffff)))
            }
        }
        Boxes::Flat => {
            let lo = rng.between(-10.0, 10.0);
            (lo, if rng.once_in(2) { lo } else { lo + rng.between(0.0, 5.0) })
        }
        Boxes::Scales => (scaled(rng, -140, 40), scaled(rng, -140, 40)),
        Boxes::Zeros => {
            let few = [0.0, -0.0, 0.0, -0.0, 1.0, -1.0, 0.5, 5.0];
            (rng.pick(&few), rng.pick(&few))
        }
        Boxes::Bits => (bounded_bits(rng), bounded_bits(rng)),
    };
    if pair.0 <= pair.1 { pair } else { (pair.1, pair.0) }
}

fn some_box(rng: &mut Rng, kind: Boxes, point: Vec3A) -> Aabb {
    let (x, y, z) = (span(rng, kind, point.x), span(rng, kind, point.y), span(rng, kind, point.z));
    Aabb::new(vec3a(x.0, y.0, z.0), vec3a(x.1, y.1, z.1))
}

pub fn any_box(rng: &mut Rng) -> Aabb {
    let kind = rng.pick(&BOXES);
    let point = vec3a(rng.between(-3.0, 3.0), rng.pick(&[0.0, -0.0, 2.5]), rng.between(-3.0, 3.0));
    some_box(rng, kind, point)
}

struct Builder<'a> {
    rng: &'a mut Rng,
    shape: Shape,
    kind: Boxes,
    point: Vec3A,
    pairs: Vec<u32>,
    positions: Vec<u32>,
    nodes: Vec<(Aabb, u32)>,
}

impl Builder<'_> {
    fn left_leaves(&mut self, leaves: usize, depth: usize) -> usize {
        match self.shape {
            Shape::Balanced => leaves / 2,
            Shape::Uneven => 1 + self.rng.below(leaves - 1),
            Shape::LeftChain => leaves - 1,
            Shape::RightChain => 1,
            Shape::Zigzag if depth % 2 == 0 => 1,
            Shape::Zigzag => leaves - 1,
        }
    }

    /// Fills node v with a subtree of so many leaves, and gives its box.
    fn fill(&mut self, v: usize, leaves: usize, depth: usize, within: Aabb) -> Aabb {
        if leaves == 1 {
            let b = if self.kind == Boxes::Nested { within } else { some_box(self.rng, self.kind, self.point) };
            self.nodes[v] = (b, leaf(self.positions.pop().unwrap()));
            return b;
        }
        let first = self.pairs.pop().unwrap();
        let left = self.left_leaves(leaves, depth);
        let (p, q) = self.halves(within);
        let a = self.fill(first as usize, left, depth + 1, p);
        let b = self.fill(first as usize + 1, leaves - left, depth + 1, q);
        let whole = match self.kind {
            Boxes::Outside | Boxes::Bits => some_box(self.rng, self.kind, self.point),
            Boxes::Nested => within,
            Boxes::Zeros if self.rng.once_in(2) => some_box(self.rng, self.kind, self.point),
            _ => a.union(&b),
        };
        self.nodes[v] = (whole, inner(first));
        whole
    }

    /// The two parts of a box cut across a random axis.
    fn halves(&mut self, b: Aabb) -> (Aabb, Aabb) {
        let t = self.rng.unit();
        let (mut p, mut q) = (b, b);
        match self.rng.below(3) {
            0 => (p.max.x, q.min.x) = cut(b.min.x, b.max.x, t),
            1 => (p.max.y, q.min.y) = cut(b.min.y, b.max.y, t),
            _ => (p.max.z, q.min.z) = cut(b.min.z, b.max.z, t),
        }
        (p, q)
    }
}

fn cut(lo: f32, hi: f32, t: f32) -> (f32, f32) {
    let at = (lo + (hi - lo) * t).clamp(lo, hi);
    (at, at)
}

/// An accepted tree of n leaves, but for chains of more than 128.
pub fn tree(rng: &mut Rng, n: usize, shape: Shape, kind: Boxes) -> Tree {
    if n == 0 {
        return Tree::default();
    }
    let mut pairs: Vec<u32> = (0..n as u32 - 1).rev().map(|k| 2 * k + 1).collect();
    let mut positions: Vec<u32> = (0..n as u32).rev().collect();
    if rng.once_in(2) {
        rng.shuffle(&mut pairs);
    }
    if rng.once_in(2) {
        rng.shuffle(&mut positions);
    }
    let coordinate = |rng: &mut Rng| rng.pick(&[0.0, -0.0, 1.0, -3.25, 1e-30, BOUND, 1e6]);
    let point = vec3a(coordinate(rng), coordinate(rng), coordinate(rng));
    let within = Aabb::new(vec3a(-8.0, -4.0, 0.0), vec3a(8.0, 4.0, 2.0));
    let nodes = vec![(within, 0); 2 * n - 1];
    let mut b = Builder { rng, shape, kind, point, pairs, positions, nodes };
    b.fill(0, n, 0, within);
    let mut t = Tree::default();
    b.nodes.iter().for_each(|(b, link)| t.push(b, *link));
    t.indices = indices(rng, n);
    t
}

/// Index words below n: each once, or with repeats, or all the same.
fn indices(rng: &mut Rng, n: usize) -> Vec<u32> {
    let mut list: Vec<u32> = (0..n as u32).collect();
    match rng.below(4) {
        0 => {}
        1 => rng.shuffle(&mut list),
        2 => list.iter_mut().for_each(|x| *x = rng.below(n) as u32),
        _ => {
            let x = rng.below(n) as u32;
            list.iter_mut().for_each(|y| *y = x);
        }
    }
    list
}

/// A chain of n leaves, each pair a leaf and the rest, in rising order.
pub fn chain(n: usize, kind: Boxes) -> Tree {
    let mut rng = Rng::new(n as u64);
    let mut t = tree(&mut rng, n, Shape::RightChain, kind);
    t.indices = (0..n as u32).collect();
    t
}

/// Floats at corners: zeros, subnormals, powers of two and their neighbours, limits, and any bits (a NaN as 0x7fc00000).
pub fn corner(rng: &mut Rng) -> f32 {
    let near = |rng: &mut Rng, x: f32| {
        let b = x.to_bits();
        f32::from_bits((b + rng.below(5) as u32).saturating_sub(2) | (rng.bits() & 0x8000_0000))
    };
    let x = match rng.below(10) {
        0 => zero(rng),
        1 => near(rng, 1.0 / 8388608.0),
        2 => near(rng, BOUND),
        3 => near(rng, 0.0001),
        4 => {
            let k = rng.below(255) as u32;
            near(rng, f32::from_bits(k << 23))
        }
        5 => f32::from_bits(rng.bits() & 0x807f_ffff),
        6 => rng.pick(&[f32::INFINITY, f32::NEG_INFINITY, f32::MAX, f32::MIN, f32::MIN_POSITIVE, 1.0, -1.0, 0.5]),
        7 => rng.between(-4.0, 4.0),
        _ => f32::from_bits(rng.bits()),
    };
    if x.is_nan() { f32::from_bits(0x7fc0_0000) } else { x }
}

/// A zero of either sign.
pub fn zero(rng: &mut Rng) -> f32 {
    rng.pick(&[0.0, -0.0])
}

fn component(rng: &mut Rng) -> f32 {
    match rng.below(12) {
        0 => zero(rng),
        1 => rng.pick(&[1.0, -1.0]),
        2 => scaled(rng, -30, 3),
        _ => rng.between(-1.0, 1.0),
    }
}

fn direction(rng: &mut Rng) -> Vec3A {
    let mut d = [component(rng), component(rng), component(rng)];
    match rng.below(20) {
        0..4 => {
            let axis = rng.below(3);
            (0..3).filter(|a| *a != axis).for_each(|a| d[a] = rng.pick(&[0.0, 0.0, 0.0, -0.0]));
            d[axis] = rng.pick(&[1.0, -1.0, 0.25, -8.0]);
        }
        4 => d = [zero(rng), zero(rng), zero(rng)],
        5 => d = [bounded_bits(rng), bounded_bits(rng), bounded_bits(rng)],
        _ => {}
    }
    Vec3A::from(d)
}

/// A direction along an axis, with zeros of either sign.
pub fn along_axis(rng: &mut Rng) -> Vec3A {
    let mut d = [zero(rng), zero(rng), zero(rng)];
    d[rng.below(3)] = sign(rng);
    Vec3A::from(d)
}

pub fn reach(rng: &mut Rng) -> f32 {
    let near = 0.0001f32.to_bits();
    match rng.below(20) {
        0 => f32::NEG_INFINITY,
        1 => -rng.unit(),
        2 => f32::from_bits(near - 2 + rng.below(5) as u32),
        3 => rng.pick(&[0.0, -0.0, f32::MAX, 1e-40]),
        4 => rng.between(0.0, 4.0),
        5 | 6 => scaled(rng, -10, 30).abs(),
        _ => f32::INFINITY,
    }
}

/// A point of the box, at times with a zero where the box has one.
pub fn inside(rng: &mut Rng, b: &Aabb) -> Vec3A {
    let spans = [(b.min.x, b.max.x), (b.min.y, b.max.y), (b.min.z, b.max.z)];
    let mut at = |lo: f32, hi: f32| match lo <= 0.0 && 0.0 <= hi && rng.once_in(4) {
        true => zero(rng),
        false => (lo as f64 + (hi as f64 - lo as f64) * rng.unit() as f64) as f32,
    };
    Vec3A::from(spans.map(|(lo, hi)| at(lo, hi)))
}

/// The float below, or this one, or the float above.
pub fn beside(rng: &mut Rng, x: f32) -> f32 {
    rng.pick(&[x.next_down(), x, x.next_up()])
}

/// A tmin that is no NaN: mostly nearer than all boxes, or about the place where the ray comes to this one or leaves it; else
/// about tmax, about 0.0001, or any, seldom infinite.
fn tmin(rng: &mut Rng, r: &Ray, about: &Aabb) -> f32 {
    let (a, b) = ((about.min - r.origin) * r.inv_direction, (about.max - r.origin) * r.inv_direction);
    let (near, far) = (a.min(b).max_element(), a.max(b).min_element());
    let t = match rng.below(24) {
        0..10 => rng.pick(&[0.0, 0.0, 0.0, -0.0, -5.0]),
        10..13 => beside(rng, near),
        13..16 => beside(rng, far),
        16 | 17 => near + (far - near) * rng.unit(),
        18 if r.tmax.is_finite() => beside(rng, r.tmax),
        19 => beside(rng, 0.0001),
        20 => rng.pick(&[1.0, 0.00005, 1e-40, -1e-40]),
        21 => rng.pick(&[f32::NEG_INFINITY, f32::MIN, f32::MAX, f32::INFINITY]),
        22 => scaled(rng, -20, 20),
        _ => rng.between(0.0, 4.0),
    };
    if t.is_nan() { 0.0 } else { t }
}

/// An accepted ray, mostly one that has to do with the box: from inside it, or through a point of it from some way back.
pub fn ray(rng: &mut Rng, about: &Aabb) -> Ray {
    let mut d = direction(rng);
    let aim = inside(rng, about);
    let wide = (about.max - about.min).max_element();
    let back = rng.pick(&[1.0, 30.0, wide, 3.0 * wide]) * rng.unit();
    let origin = match rng.below(18) {
        0 | 1 => aim,
        2 => rng.pick(&[about.min, about.max]),
        3 => vec3a(bounded_bits(rng), bounded_bits(rng), bounded_bits(rng)),
        4 => vec3a(zero(rng), zero(rng), zero(rng)),
        5..9 => {
            // along an axis through the point
            d = along_axis(rng);
            aim - d * back
        }
        9..14 => {
            // from a corner of the space about the box towards the point
            let from = vec3a(rng.between(-1.0, 1.0), rng.between(-1.0, 1.0), rng.between(-1.0, 1.0)) * back + aim;
            d = aim - from;
            from
        }
        _ => aim - d * back,
    };
    let held = |v: Vec3A| Vec3A::from([v.x, v.y, v.z].map(|x| x.clamp(-BOUND, BOUND)));
    let r = Ray::new(held(origin), held(d), 0.0, reach(rng));
    Ray { tmin: tmin(rng, &r, about), ..r }
}
