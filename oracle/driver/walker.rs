//! A walker and its steps by their rules, with the refusals that the Rust has not, for any walker that a caller can make up.
//! No code is shared with the published traversals.
use crate::accept::{MOST_LEAVES, MOST_NODES, accepted_ray};
use crate::record::{Node, node, rule};
use glam::Vec3A;
use obvhs::ray::Ray;

/// The most groups that wait.
const MOST_WAITING: usize = 32;

#[derive(Clone, Copy, PartialEq, Debug)]
pub enum Step {
    Tested,
    Reported(u32),
    Done,
    Refused(u32),
}

/// Bits counted from a base: positions, or in bits 31 to 24 children by slot XOR octant, over an imask in the low byte.
#[derive(Clone, Copy, PartialEq, Default, Debug)]
pub struct Group {
    pub base: u32,
    pub bits: u32,
}

/// A walker as the words that its caller holds. Of the stack's 32 groups those not given are zero.
#[derive(Clone)]
pub struct Held {
    pub ray: Ray,
    pub octant: u32,
    pub tests: u32,
    pub positions: Group,
    pub current: Group,
    pub depth: u32,
    pub stack: Vec<Group>,
}

/// A walker: positions in hand (highest first), children in hand (in the order of their tests), and waiting groups, the
/// last to be taken first. Numbers are wider than the words', so that no sum wraps.
#[derive(Clone)]
pub struct Walker {
    pub ray: Ray,
    octant: u32,
    pub tests: u32,
    pub positions: Vec<u64>,
    pub group: Vec<u64>,
    waiting: Vec<Vec<u64>>,
    /// Groups past the 32 that there is room for, which a forged walker claims.
    claimed: u32,
}

fn safe_inverse(v: f32) -> f32 {
    if v.abs() <= 1.0 / 8388608.0 {
        if v.is_sign_negative() { -8388608.0 } else { 8388608.0 }
    } else {
        1.0 / v
    }
}

fn negative_zero(v: f32) -> bool {
    v.to_bits() == 0x8000_0000
}

/// The ray that a walker begins with: -0.0 in origin or direction is read as +0.0, and the inverse is that of the direction so read.
fn begun(r: &Ray) -> Ray {
    let read = |v: Vec3A| [v.x, v.y, v.z].map(|x| if negative_zero(x) { 0.0 } else { x });
    let (origin, direction) = (read(r.origin), read(r.direction));
    let inv_direction = Vec3A::from(direction.map(safe_inverse));
    Ray { origin: Vec3A::from(origin), direction: Vec3A::from(direction), inv_direction, ..*r }
}

/// The first of causes 1 and 2 of a record of n positions, or 0.
pub fn size_cause(record: &[u8], n: usize) -> u32 {
    if record.len() % 80 != 0 {
        return 1;
    }
    if n > MOST_LEAVES || record.len() / 80 > MOST_NODES { 2 } else { 0 }
}

/// 7 less 4, 2, 1 for a negative x, y, z.
fn octant(r: &Ray) -> u32 {
    let d = [r.direction.x, r.direction.y, r.direction.z];
    7 - (0..3).map(|a| if d[a] < 0.0 { 4 >> a } else { 0 }).sum::<u32>()
}

/// Whether a distance counts for a ray: it is not below tmin, and below tmax. NaN never is.
pub fn counts(r: &Ray, distance: f32) -> bool {
    !(distance < r.tmin) && distance < r.tmax
}

/// The larger of tmin and 0.0001, which a NaN tmin leaves.
fn near_limit(r: &Ray) -> f32 {
    if r.tmin > 0.0001 { r.tmin } else { 0.0001 }
}

/// Where a ray comes to a slot's box, and where it leaves it.
pub fn slot_span(r: &Ray, n: &Node, slot: usize) -> (f32, f32) {
    let (origin, direction) = ([r.origin.x, r.origin.y, r.origin.z], [r.direction.x, r.direction.y, r.direction.z]);
    let (mut near, mut far) = (f32::NEG_INFINITY, f32::INFINITY);
    for a in 0..3 {
        let inverse = safe_inverse(direction[a]);
        let negative = direction[a] < 0.0;
        let scale = f32::from_bits((n.e(a) as u32) << 23) * inverse;
        let start = (n.p(a) - origin[a]) * inverse;
        let at = |greatest| n.end(slot, a, greatest) as f32 * scale + start;
        near = near.max(at(negative));
        far = far.min(at(!negative));
    }
    (near, far)
}

impl Held {
    /// A walker just begun: the first node is in hand.
    pub fn fresh(r: &Ray) -> Held {
        let ray = begun(r);
        Held {
            ray,
            octant: octant(&ray),
            tests: 0,
            positions: Group::default(),
            current: Group { base: 0, bits: 0x8000_0000 },
            depth: 0,
            stack: vec![],
        }
    }
}

impl Group {
    fn has(&self, bit: u32) -> bool {
        self.bits >> bit & 1 == 1
    }

    fn positions(&self) -> Vec<u64> {
        (0..32).rev().filter(|&b| self.has(b)).map(|b| self.base as u64 + b as u64).collect()
    }

    /// Children by falling slot XOR octant; a child's rank is how many bits of imask are set below its slot.
    fn children(&self, octant: u32) -> Vec<u64> {
        let child = |k: u32| {
            let slot = k ^ octant & 7;
            self.base as u64 + (0..slot).filter(|&s| self.has(s)).count() as u64
        };
        (0..8).rev().filter(|&k| self.has(24 + k)).map(child).collect()
    }
}

impl Walker {
    pub fn of(h: &Held) -> Walker {
        let waiting = (0..MOST_WAITING.min(h.depth as usize)).map(|i| h.stack.get(i).copied().unwrap_or_default());
        Walker {
            ray: h.ray,
            octant: h.octant,
            tests: h.tests,
            positions: h.positions.positions(),
            group: h.current.children(h.octant),
            waiting: waiting.map(|g| g.children(h.octant)).collect(),
            claimed: h.depth.saturating_sub(MOST_WAITING as u32),
        }
    }

    pub fn fresh(r: &Ray) -> Walker {
        Walker::of(&Held::fresh(r))
    }

    /// How many groups wait.
    pub fn depth(&self) -> u32 {
        self.waiting.len() as u32 + self.claimed
    }

    /// Telling refuses nothing; a distance that counts lowers tmax to it.
    pub fn tell(&mut self, distance: f32) {
        if counts(&self.ray, distance) {
            self.ray.tmax = distance;
        }
    }

    /// Exactly what is on the list: the ray fails 9, -0.0 in origin or direction, inverse or octant is not its direction's, over
    /// 32 groups, more tests than nodes.
    pub fn forged(&self, m: usize) -> bool {
        let (o, d, i) = (self.ray.origin, self.ray.direction, self.ray.inv_direction);
        let unread = [o.x, o.y, o.z, d.x, d.y, d.z].into_iter().any(negative_zero);
        let own = [(d.x, i.x), (d.y, i.y), (d.z, i.z)].iter().all(|&(d, i)| i == safe_inverse(d));
        let turned = !own || self.octant != octant(&self.ray);
        !accepted_ray(&self.ray) || unread || turned || self.claimed > 0 || self.tests as usize > m
    }

    /// Whether the ray passes a slot's box.
    fn passes(&self, record: &[u8], i: usize, slot: usize) -> bool {
        let (near, far) = slot_span(&self.ray, &node(record, i), slot);
        near.max(near_limit(&self.ray)) <= far.min(self.ray.tmax)
    }

    /// The positions and children of a node, in order, that stand in slots which the ray passes and which are open besides.
    pub fn open(&self, record: &[u8], i: usize, slot_open: impl Fn(usize, usize) -> bool) -> (Vec<u64>, Vec<u64>) {
        let d = node(record, i);
        let octant = self.octant as usize;
        let passed: Vec<usize> = (0..8).filter(|&s| d.meta(s) != 0 && self.passes(record, i, s) && slot_open(i, s)).collect();
        let mut positions: Vec<u64> = vec![];
        let mut children: Vec<usize> = vec![];
        for s in passed {
            if d.is_leaf_slot(s) {
                let (first, count) = d.leaf_range(s);
                positions.extend(first..first + count);
            } else {
                children.push(s);
            }
        }
        positions.sort_by(|a, b| b.cmp(a));
        positions.dedup();
        children.sort_by_key(|s| 7 - (s ^ octant));
        let rank = |s: usize| (d.imask() & ((1 << s) - 1)).count_ones();
        (positions, children.into_iter().map(|s| (d.child_base() + rank(s)) as u64).collect())
    }

    /// A step on any record: causes 1, 2 and 10 in this order; refused, it changes nothing.
    pub fn step(&mut self, record: &[u8], n: usize) -> Step {
        match size_cause(record, n) {
            0 if self.forged(record.len() / 80) => return Step::Refused(10),
            0 => {}
            number => return Step::Refused(number),
        }
        self.advance(record, n, |_, _| true)
    }

    /// One position, or one node test, or done, on a record whose sizes fit, where some slots of its nodes are open.
    pub fn advance(&mut self, record: &[u8], n: usize, slot_open: impl Fn(usize, usize) -> bool) -> Step {
        if let Some(&p) = self.positions.first() {
            if p >= n as u64 {
                return Step::Refused(10);
            }
            self.positions.remove(0);
            return Step::Reported(p as u32);
        }
        // without nodes the first one is nothing to test, and is let go
        if record.is_empty() && self.group == [0] && self.waiting.is_empty() {
            self.group.clear();
            return Step::Done;
        }
        let mut next = self.clone();
        while next.group.is_empty() {
            match next.waiting.pop() {
                Some(g) => next.group = g,
                None => return Step::Done,
            }
        }
        let i = next.group.remove(0);
        if !next.group.is_empty() {
            if next.waiting.len() == MOST_WAITING {
                return Step::Refused(10);
            }
            next.waiting.push(next.group);
        }
        let m = record.len() as u64 / 80;
        if next.tests as u64 == m || i >= m || !rule(record, n, i as usize) {
            return Step::Refused(10);
        }
        next.tests += 1;
        (next.positions, next.group) = self.open(record, i as usize, slot_open);
        *self = next;
        Step::Tested
    }
}
