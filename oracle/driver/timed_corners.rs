//! Stored timed queries at the corners: T at every quarter, side tables that are used as they are read, spans of one quarter, a leaf
//! whose panes are drawn at either end of the day, panes that are refused out of their hours, and long lists.
use crate::convert::convert;
use crate::generate::{BOXES, Boxes, Shape, tree};
use crate::long::{along, row};
use crate::queries::{aimed, scene};
use crate::record::node;
use crate::rng::Rng;
use crate::scene::{Scene, through_t};
use crate::spans::{LAST, below};
use crate::store::*;
use crate::timed_scene::{TimedAsked, TimedScene};
use crate::tree::Tree;
use obvhs::ray::Ray;

/// The spans of the samples: from 32 to 63 and from 60 to 95.
pub const SAMPLE_SPANS: [u8; 4] = [32, 63, 60, 95];

/// T with these spans of its panes.
pub fn timed_t(spans: [u8; 4]) -> TimedScene {
    TimedScene::converted(Scene::sample(), spans.to_vec())
}

/// The ray along x that passes both of T's boxes.
pub fn along_t() -> Ray {
    through_t(-1.0, 0.0)
}

/// The same ray at each of these quarters, over a side table that a conversion wrote, or over another.
fn at_quarters(s: &TimedScene, quarters: impl Iterator<Item = u8>, converted: bool) -> Vec<u32> {
    let asked = |quarter: u8| {
        let needed = match (quarter > LAST, converted) {
            (true, _) => 0,
            (_, true) => s.agreed(&along_t(), quarter).any.found.len(),
            (_, false) => s.defined(&along_t(), quarter).any.found.len(),
        };
        TimedAsked { room: needed, ..s.asked(&along_t(), quarter) }
    };
    s.case(&quarters.map(asked).collect::<Vec<_>>())
}

/// Quarters at and beside the ends of spans, and past the day.
fn ends() -> impl Iterator<Item = u8> {
    [0, 1, 31, 32, 33, 46, 47, 48, 59, 60, 61, 63, 64, 94, 95, 96, 254, 255].into_iter()
}

/// T at every quarter; spans at either end of the day, and of one quarter; slots that are used as they are read.
fn of_t(g: &mut Group) {
    g.add(at_quarters(&timed_t(SAMPLE_SPANS), 0..=255, true));
    for spans in [[0, 95, 0, 95], [0, 0, 95, 95], [95, 95, 0, 0], [47, 47, 48, 48], [0, 47, 48, 95], [33, 33, 33, 33]] {
        g.add(at_quarters(&timed_t(spans), ends(), true));
    }
    let slots = [[0, 255], [255, 0], [0, 0], [255, 255], [64, 63], [0, 96], [32, 63], [48, 47]];
    for first in slots {
        for second in slots {
            let mut s = timed_t(SAMPLE_SPANS);
            s.side[..4].copy_from_slice(&[first, second].concat());
            g.add(at_quarters(&s, [0, 47, 48, 61, 95].into_iter(), false));
        }
    }
}

/// No leaves, and one, at both ends of the day.
fn few_leaves(rng: &mut Rng, g: &mut Group) {
    let empty = TimedScene::converted(Scene::default(), vec![]);
    g.add(at_quarters(&empty, [0, 48, 95, 96].into_iter(), true));
    for (k, spans) in [[0, 0], [95, 95], [0, 95], [40, 50]].into_iter().enumerate() {
        let t = tree(rng, 1, Shape::Balanced, BOXES[k]);
        let c = convert(&t, 3, k % 2 == 0);
        let s = TimedScene::converted(scene(rng, &t, &c), spans.to_vec());
        let ray = loop {
            let ray = aimed(rng, &t, &c.record);
            if s.agreed(&ray, spans[0]).any.found == [0] {
                break ray;
            }
        };
        let quarters = [0, 1, 39, 40, 50, 51, 94, 95, 96];
        g.add(s.case(&quarters.map(|quarter| s.asked(&ray, quarter))));
    }
}

/// A tree's record of which some leaf holds two panes or more, and a ray that passes them: one drawn up to quarter 10, the others from
/// 90 on. In between the slot is passed and nothing of it is listed.
pub fn hull_over_a_leaf(rng: &mut Rng) -> (Tree, TimedScene, Ray) {
    loop {
        let n = 3 + rng.below(6);
        let mut t = tree(rng, n, Shape::Balanced, Boxes::Grid);
        t.indices = (0..n as u32).collect();
        let c = convert(&t, 3, rng.once_in(2));
        let slots = (0..8 * (c.record.len() / 80)).map(|k| (k / 8, k % 8));
        let held: Vec<_> = slots.filter(|&(i, slot)| node(&c.record, i).is_leaf_slot(slot)).collect();
        let Some(&(i, slot)) = held.iter().find(|&&(i, slot)| node(&c.record, i).leaf_range(slot).1 > 1) else { continue };
        let mut spans = [33, 34].repeat(n);
        let panes: Vec<usize> = below(&c.record, i, slot).iter().map(|&p| c.list[p as usize] as usize).collect();
        panes.iter().for_each(|&pane| spans[2 * pane..2 * pane + 2].copy_from_slice(&[90, 95]));
        spans[2 * panes[0]..2 * panes[0] + 2].copy_from_slice(&[0, 10]);
        let s = TimedScene::converted(scene(rng, &t, &c), spans);
        assert_eq!(s.side[16 * i + 2 * slot..16 * i + 2 * slot + 2], [0, 95]);
        for _ in 0..20 {
            let ray = aimed(rng, &t, &c.record);
            let listed = [5, 50, 92].map(|quarter| s.agreed(&ray, quarter).any.found.len());
            if listed == [1, 0, panes.len() - 1] {
                return (t, s, ray);
            }
        }
    }
}

fn leaves_of_two_ends(rng: &mut Rng, g: &mut Group) {
    for _ in 0..6 {
        let (_, s, ray) = hull_over_a_leaf(rng);
        g.add(s.case(&[0, 5, 10, 11, 33, 50, 89, 90, 92, 95].map(|quarter| s.asked(&ray, quarter))));
    }
}

/// T with a pane that is met and refused by its box or its index word, at quarters of it and of none; position 1 comes first. A box
/// out of its hours is not looked at, an index word is, where the slot is open; and where miss is blocked before it is not.
fn refused_panes(g: &mut Group) {
    let expected = [
        (0, false, [[0, 6, 6], [0, 6, 0], [0, 0, 0], [0, 0, 0]]),
        (0, true, [[10, 10, 10], [10, 10, 0], [0, 0, 0], [0, 0, 0]]),
        (1, false, [[0, 0, 0], [0, 6, 6], [0, 6, 6], [0, 0, 0]]),
        (1, true, [[0, 0, 0], [10, 10, 10], [10, 10, 10], [0, 0, 0]]),
    ];
    for (pane, by_index, numbers) in expected {
        let mut s = timed_t(SAMPLE_SPANS);
        match by_index {
            true => s.scene.list[pane] = 2,
            false => s.scene.panes[6 * pane + 4] = 0x7fc0_0000,
        }
        let asked = [40, 61, 70, 10].map(|quarter| s.asked(&along_t(), quarter));
        assert_eq!(asked.each_ref().map(|q| s.by_rules(q).numbers()), numbers);
        g.add(s.case(&asked));
        // slots that let everything through: then an index word is looked at whatever the quarter
        s.side[..4].copy_from_slice(&[0, 255, 0, 255]);
        let asked = [40, 61, 70, 10].map(|quarter| s.asked(&along_t(), quarter));
        let any = asked.each_ref().map(|q| s.by_rules(q).any.refusal);
        assert_eq!(any, if by_index { [10; 4] } else { [0; 4] });
        g.add(s.case(&asked));
    }
}

/// Rows of boxes of which a ray passes all, and so many are drawn to quarter 50, as many as any-hit keeps positions aside, one less and
/// one more; the others from 40 on. In between all are drawn.
fn long_lists(rng: &mut Rng, g: &mut Group) {
    for (k, early) in [63, 64, 65, 255, 256, 257].into_iter().enumerate() {
        let n = 2 * early + k;
        let mut plain = row(n as u32, k as u32, 1 + k as u32 % 3, k % 2 == 0);
        let pane = |p: usize| if p % 2 == 0 && p < 2 * early { p % 16 } else { 16 + p % 16 };
        plain.list = (0..n).map(|p| pane(p) as u32).collect();
        let s = TimedScene::converted(plain, [[0, 50].repeat(16), [40, 95].repeat(16)].concat());
        let ray = along(rng, k % 2 == 0);
        let listed = [20, 45, 60].map(|quarter| s.agreed(&ray, quarter).any.found.len());
        assert_eq!(listed, [early, n, n - early]);
        let asked = [(20, n), (20, early), (20, early - 1), (45, n), (45, n - 1), (60, n - early)];
        g.add(s.case(&asked.map(|(quarter, room)| TimedAsked { room, ..s.asked(&ray, quarter) })));
    }
}

pub fn group(rng: &mut Rng) -> Group {
    let mut g = Group::new(TIMED_QUERIES, 0);
    of_t(&mut g);
    few_leaves(rng, &mut g);
    leaves_of_two_ends(rng, &mut g);
    refused_panes(&mut g);
    long_lists(rng, &mut g);
    g
}
