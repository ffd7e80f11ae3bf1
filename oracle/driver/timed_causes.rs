//! Stored timed queries with every two causes of refusal that can hold together, and with lists at the largest lengths. The answers
//! are the rules'.
use crate::accept::{MOST_LEAVES, MOST_NODES};
use crate::causes::{self, Question, meeting, pairs, put_last_positions, sized};
use crate::queries::scene;
use crate::rng::Rng;
use crate::scene::Scene;
use crate::spans::{LAST, SIDE, some_quarter, some_spans};
use crate::store::*;
use crate::timed_corners::along_t;
use crate::timed_queries::far_reaching;
use crate::timed_scene::{TimedAsked, TimedScene};

/// In the order in which they are looked for.
const CAUSES: [u32; 7] = [1, 2, 14, 9, 10, 6, 11];

/// A question, what it is asked of, and the positions that any-hit finds while nothing is wrong.
#[derive(Clone)]
struct Call {
    scene: TimedScene,
    asked: TimedAsked,
    met: Vec<u32>,
}

fn call(rng: &mut Rng) -> Call {
    let ((scene, asked), met) = meeting(rng, |rng, t, c| {
        let spans = some_spans(rng, t.indices.len());
        let scene = TimedScene::converted(scene(rng, t, c), spans);
        let ray = far_reaching(rng, t, &c.record, 8);
        let asked = scene.asked(&ray, some_quarter(rng, &scene.spans));
        let a = scene.agreed(&ray, asked.quarter);
        ((scene, asked), a)
    });
    Call { scene, asked, met }
}

impl Call {
    /// Makes the spans, the side table or the quarter unfit.
    fn spoil_hours(&mut self, rng: &mut Rng) {
        let (s, q) = (&mut self.scene, &mut self.asked);
        let (last, slots) = (s.spans.len() - 2, s.side.len());
        match rng.below(7) {
            0 => s.spans.truncate(last + rng.below(2)),
            1 => s.spans.extend(vec![0; 1 + rng.below(2)]),
            2 => s.spans[..2].copy_from_slice(&rng.pick(&[[1, 0], [0, LAST + 1], [255, 255]])),
            3 => s.spans[last..].copy_from_slice(&rng.pick(&[[95, 94], [95, 96], [0, 255]])),
            4 => s.side.truncate(slots - 1 - rng.below(SIDE)),
            5 => s.side.extend(vec![0; 1 + rng.below(SIDE)]),
            _ => q.quarter = rng.pick(&[LAST + 1, 128, 255]),
        }
    }
}

impl Question for Call {
    fn numbers(&self) -> [u32; 3] {
        self.scene.by_rules(&self.asked).numbers()
    }

    fn spoil(&mut self, rng: &mut Rng, cause: u32) {
        if cause == 14 {
            // every cause starts with this draw
            rng.pick(&self.met);
            return self.spoil_hours(rng);
        }
        let (s, q) = (&mut self.scene, &mut self.asked);
        causes::spoil(rng, cause, &mut s.scene, &mut q.ray, &mut q.room, &self.met);
        if s.scene.record.len() == 80 * (MOST_NODES + 1) {
            s.side.resize(SIDE * (MOST_NODES + 1), 0);
        }
    }

    fn case(&self) -> Vec<u32> {
        self.scene.case(std::slice::from_ref(&self.asked))
    }
}

/// How many draws of two causes: more where the walk decides, and where one is 14.
fn draws(first: u32, second: u32) -> usize {
    match (first, second) {
        (10, 6) => 20,
        (14, _) | (_, 14) => 8,
        _ => 4,
    }
}

/// T's lists with zeros added or something cut off; the side table has what the record needs and so much more, or less.
fn sized_with(bytes: usize, n: usize, corners: usize, more: isize) -> TimedScene {
    let side = (SIDE * (bytes / 80)).saturating_add_signed(more);
    let mut s = TimedScene { scene: sized(bytes, n, corners), ..TimedScene::all_day(Scene::sample()) };
    s.side.resize(side, 0);
    s.spans.resize(2 * (corners / 6), 0);
    s
}

/// Records, index words and panes at their largest lengths, each with T's ray at a quarter, at one past the day, and without room.
fn lengths() -> Group {
    let mut g = Group::new(TIMED_QUERY_SIZES, 0);
    let most = 80 * MOST_NODES;
    let mut add = |s: TimedScene, panes: usize| {
        let ask = |quarter: u8, room: usize| TimedAsked { panes, room, ..s.asked(&along_t(), quarter) };
        g.add(s.case(&[ask(0, 5), ask(LAST + 1, 5), ask(0, 1)]));
    };
    for n in [0, 1, 2, MOST_LEAVES - 1, MOST_LEAVES, MOST_LEAVES + 1] {
        for bytes in [0, 79, 80, 81, most - 1, most, most + 1, most + 80] {
            add(sized_with(bytes, n, 12, 0), 2);
        }
        for more in [-16, -1, 1, 16] {
            add(sized_with(80, n, 12, more), 2);
            add(sized_with(most, n, 12, more), 2);
        }
        [0, 6, 11, 13, 18].into_iter().for_each(|corners| add(sized_with(80, n, corners, 0), corners / 6));
        let mut s = sized_with(most, n, 12, 0);
        put_last_positions(&mut s.scene.record);
        add(s, 2);
    }
    // more panes than there can be positions, as any-hit is told; panes whose bytes come to nothing in 64 bits
    for (panes, bytes) in [(70_000, 140_000), (70_000, 139_999), (69_999, 140_000), (1 << 63, 0), (usize::MAX, 0)] {
        let mut s = sized_with(80, 2, 12, 0);
        s.spans.resize(bytes, 0);
        add(s, panes);
    }
    g
}

pub fn groups(rng: &mut Rng) -> Vec<Group> {
    let mut two = Group::new(TIMED_TWO_CAUSES, 0);
    pairs(rng, &mut two, &CAUSES, draws, call);
    vec![two, lengths()]
}
