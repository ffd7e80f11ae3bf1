//! Stored queries at the corners: every two causes of refusal that can hold together, and records and lists at the largest
//! lengths. The answers are the rules'.
use crate::accept::{MOST_LEAVES, MOST_NODES};
use crate::convert::{Converted, convert};
use crate::generate::{Boxes, Shape, ray, tree};
use crate::queries::{refused_ray, scene, target_box};
use crate::rng::Rng;
use crate::scene::{Answers, Asked, Scene, through_t};
use crate::store::*;
use crate::tree::Tree;
use obvhs::ray::Ray;
use std::collections::BTreeSet;

const CAUSES: [u32; 6] = [1, 2, 9, 10, 6, 11];

/// What any-hit, closest and miss are asked, which can be made to meet causes.
pub trait Question: Clone {
    /// The numbers of the three answers, 0 for none.
    fn numbers(&self) -> [u32; 3];

    /// Makes it meet a cause, for some of the queries at least.
    fn spoil(&mut self, rng: &mut Rng, cause: u32);

    fn case(&self) -> Vec<u32>;
}

/// A question, what it is asked of, and the positions that any-hit finds while nothing is wrong.
#[derive(Clone)]
struct Call {
    scene: Scene,
    asked: Asked,
    met: Vec<u32>,
}

/// A tree of 5 to 11 leaves, with its conversion.
pub fn small_tree(rng: &mut Rng) -> (Tree, Converted) {
    let n = 5 + rng.below(7);
    let t = tree(rng, n, Shape::Balanced, Boxes::Spread);
    let c = convert(&t, 1 + rng.below(3) as u32, rng.once_in(2));
    (t, c)
}

/// Draws what is asked of such a tree until nothing is refused, and the ray meets positions of several nodes, and a pane. Gives it with
/// the positions that any-hit finds.
pub fn meeting<T>(rng: &mut Rng, ask: impl Fn(&mut Rng, &Tree, &Converted) -> (T, Answers)) -> (T, Vec<u32>) {
    loop {
        let (t, c) = small_tree(rng);
        let (asked, a) = ask(rng, &t, &c);
        if a.any.tests > 1 && a.any.found.len() > 2 && !a.closest.found.is_empty() {
            return (asked, a.any.found);
        }
    }
}

fn call(rng: &mut Rng) -> Call {
    let ((scene, asked), met) = meeting(rng, |rng, t, c| {
        let scene = scene(rng, t, c);
        let about = target_box(rng, t);
        let (ray, n) = (ray(rng, &about), t.indices.len());
        let a = scene.agreed(&ray);
        ((scene, Asked { ray, n, room: n }), a)
    });
    Call { scene, asked, met }
}

/// Makes a scene, the ray or the words that any-hit is lent meet a cause other than 14, where any-hit met these positions.
pub fn spoil(rng: &mut Rng, cause: u32, s: &mut Scene, ray: &mut Ray, room: &mut usize, met: &[u32]) {
    let p = rng.pick(met) as usize;
    match cause {
        1 => match rng.below(3) {
            0 => s.record.truncate(s.record.len() - 1 - rng.below(79)),
            1 => s.record.extend(vec![0; 1 + rng.below(79)]),
            _ => s.panes.extend(vec![0; 1 + rng.below(5)]),
        },
        2 => match rng.below(2) {
            0 => s.list.resize(MOST_LEAVES + 1, 0),
            _ => s.record.resize(80 * (MOST_NODES + 1), 0),
        },
        9 => *ray = refused_ray(rng, ray),
        10 => match rng.below(4) {
            0 => s.record[12 + rng.below(3)] = rng.pick(&[0, 52, 162, 255]),
            1 => (0..s.record.len() / 80).skip(1).for_each(|i| s.record[80 * i + 14] = 0),
            2 => s.list[p] = rng.pick(&[s.panes.len() as u32 / 6, u32::MAX]),
            _ => s.list.truncate(p),
        },
        6 => {
            let end = 6 * s.list[p] as usize + rng.below(6);
            s.panes[end] = rng.pick(&[0x7fc0_0000, 0x7f80_0000, 0xff80_0000, 0x5380_0001, 0xd380_0001]);
        }
        _ => *room = rng.pick(&[0, met.len() - 1]),
    }
}

impl Question for Call {
    fn numbers(&self) -> [u32; 3] {
        self.scene.by_rules(&self.asked).numbers()
    }

    fn spoil(&mut self, rng: &mut Rng, cause: u32) {
        let (s, q) = (&mut self.scene, &mut self.asked);
        let before = s.list.len();
        spoil(rng, cause, s, &mut q.ray, &mut q.room, &self.met);
        if s.list.len() > before {
            q.n = rng.pick(&[s.list.len(), u32::MAX as usize]);
        } else if s.list.len() < before {
            q.n = s.list.len();
        }
    }

    fn case(&self) -> Vec<u32> {
        self.scene.case(std::slice::from_ref(&self.asked))
    }
}

/// Questions with every two of these causes, so many draws of each. Of causes that a query looks for on entry, all but the last two, and of
/// 11, the first in their order is given; of 6 and 10 the one that the walk meets first.
pub fn pairs<Q: Question>(
    rng: &mut Rng,
    g: &mut Group,
    causes: &[u32],
    draws: impl Fn(u32, u32) -> usize,
    call: impl Fn(&mut Rng) -> Q,
) {
    let mut seen = BTreeSet::new();
    for (i, &first) in causes.iter().enumerate() {
        for &second in &causes[i + 1..] {
            for _ in 0..draws(first, second) {
                let c = call(rng);
                let (mut a, mut b) = (c.clone(), c);
                b.spoil(rng, second);
                let alone = b.numbers();
                let alike = rng.word();
                a.spoil(&mut Rng::new(alike), first);
                b.spoil(&mut Rng::new(alike), first);
                let (one, both) = (a.numbers(), b.numbers());
                for query in (0..3).filter(|&k| one[k] == first && alone[k] == second) {
                    assert!(both[query] == first || (first, both[query]) == (10, 6));
                    seen.insert((query, first, second, both[query]));
                }
                g.add(b.case());
            }
        }
    }
    let entry = &causes[..causes.len() - 2];
    for (i, &first) in entry.iter().enumerate() {
        for &second in &entry[i + 1..] {
            assert!((0..3).all(|query| seen.contains(&(query, first, second, first))));
        }
        assert!(seen.contains(&(0, first, 11, first)));
        assert!((1..3).all(|query| seen.contains(&(query, first, 6, first))));
    }
    assert!((1..3).all(|query| seen.contains(&(query, 10, 6, 6))));
}

/// T's record, list and panes, with zeros added or something cut off.
pub fn sized(bytes: usize, n: usize, corners: usize) -> Scene {
    let mut s = Scene::sample();
    s.record.resize(bytes, 0);
    s.list.resize(n, 0);
    s.panes.resize(corners, 0);
    s
}

/// Makes the positions of a record's first node the last that there can be.
pub fn put_last_positions(record: &mut [u8]) {
    record[20..24].copy_from_slice(&(MOST_LEAVES as u32 - 2).to_le_bytes());
}

/// The ray of the samples, and the same refused 9 by its tmax and by its tmin.
fn sample_rays() -> [Ray; 3] {
    let r = through_t(-1.0, 0.0);
    [r, Ray { tmax: f32::NAN, ..r }, Ray { tmin: f32::NAN, ..r }]
}

fn lengths() -> Group {
    let mut g = Group::new(QUERY_SIZES, 0);
    let (most, [good, far, near]) = (80 * MOST_NODES, sample_rays());
    let mut add = |s: Scene| {
        let n = s.list.len();
        g.add(s.case(&[(good, 5), (good, 1), (far, 0), (near, 5)].map(|(ray, room)| Asked { ray, n, room })));
    };
    for n in [0, 1, 2, 3, MOST_LEAVES - 1, MOST_LEAVES, MOST_LEAVES + 1] {
        for bytes in [0, 79, 81, most - 1, most + 1, most + 80, most + 159] {
            add(sized(bytes, n, 12));
        }
        for bytes in [80, most] {
            [0, 6, 11, 12, 13, 18].into_iter().for_each(|corners| add(sized(bytes, n, corners)));
        }
        let mut s = sized(most, n, 12);
        put_last_positions(&mut s.record);
        add(s);
    }
    g
}

pub fn groups(seed: u64) -> Vec<Group> {
    let mut two = Group::new(TWO_CAUSES, 0);
    pairs(&mut Rng::new(seed), &mut two, &CAUSES, |_, _| 7, call);
    vec![two, lengths()]
}
