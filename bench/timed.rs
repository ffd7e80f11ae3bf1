//! Queries, reports and the conversion at a quarter hour where every span is the whole day, which then answer as those by boxes alone:
//! each beside the untimed call of ours and beside the published one.
use crate::calls;
use crate::conversions::{conversion_by, each_conversion, lent};
use crate::queries::{Rows, Scene, any_hits_by, closests_by, misses_by, rows_of};
use crate::reports::{each_report, report_by};
use crate::timed_calls::{self, Day, Lists, QUARTER};
use crate::timing::{beside, best, shown};
use crate::tree::Tree;
use crate::trees::LEAVES;
use std::fmt::Debug;
use std::hint::black_box;

const UNTIMED: &str = "timed / untimed";

/// The whole day for so many panes.
fn all_day(panes: usize) -> Vec<u8> {
    [0, 95].repeat(panes)
}

/// The side table of a record whose panes are there all day: the day for each slot that is not empty.
fn side_table(record: &[u8]) -> Vec<u8> {
    let metas = record.chunks_exact(80).flat_map(|node| &node[24..32]);
    metas.flat_map(|&meta| [0, if meta == 0 { 0 } else { 95 }]).collect()
}

fn day_of(s: &Scene) -> Day {
    Day { side: side_table(&s.record), spans: all_day(s.list.len()) }
}

fn lists<'a>(s: &'a Scene, day: &'a Day) -> Lists<'a> {
    Lists { record: &s.record, list: &s.list, day }
}

/// What the look at the lists takes of a call. A report makes it once, a query each time.
fn looked(l: Lists, rays: usize, timed: f64) {
    if timed.is_finite() {
        let look = best(&mut || assert!(timed_calls::hours(black_box(l)))) / rays as f64;
        println!("    {} of it, {:.1} %, for the look at the lists", shown(look), 100.0 * look / timed);
    }
}

/// A row of a timed query over the untimed one.
fn compared<T: PartialEq + Debug>(
    l: Lists,
    name: &str,
    rays: &[[f32; 8]],
    mut timed: impl FnMut(&[f32; 8]) -> T,
    mut untimed: impl FnMut(&[f32; 8]) -> T,
) {
    for r in rays {
        assert_eq!(timed(r), untimed(r));
    }
    let (time, _) = beside(
        UNTIMED,
        name,
        rays.len(),
        &mut || {
            for r in black_box(rays) {
                black_box(timed(r));
            }
        },
        &mut || {
            for r in black_box(rays) {
                black_box(untimed(r));
            }
        },
    );
    looked(l, 1, time);
}

fn any_hits(s: &Scene, name: &str, rays: &[[f32; 8]]) {
    let day = day_of(s);
    let l = lists(s, &day);
    let (mut a, mut b) = (vec![0; s.list.len()], vec![0; s.list.len()]);
    compared(l, name, rays, |r| timed_calls::any_hit(l, r, &mut a), |r| calls::any_hit(&s.record, s.list.len(), r, &mut b));
    any_hits_by(s, name, rays, |r, list| timed_calls::any_hit(l, r, list));
}

fn closests(s: &Scene, name: &str, rays: &[[f32; 8]]) {
    let day = day_of(s);
    let l = lists(s, &day);
    compared(l, name, rays, |r| timed_calls::closest(l, &s.panes, r), |r| calls::closest(&s.record, &s.list, &s.panes, r));
    closests_by(s, name, rays, |r| timed_calls::closest(l, &s.panes, r));
}

fn misses(s: &Scene, name: &str, rays: &[[f32; 8]]) {
    let day = day_of(s);
    let l = lists(s, &day);
    compared(l, name, rays, |r| timed_calls::miss(l, &s.panes, r), |r| calls::miss(&s.record, &s.list, &s.panes, r));
    misses_by(s, name, rays, |r| timed_calls::miss(l, &s.panes, r));
}

fn report(s: &Scene, name: &str, losses: &[u32], rays: &[[f32; 8]]) {
    let day = day_of(s);
    let l = lists(s, &day);
    let quarters = vec![QUARTER; rays.len()];
    let timed = |rays: &[f32], a: &mut [u64], b: &mut [u64]| timed_calls::report(l, losses, rays, &quarters, a, b);
    let (mut a, mut b) = (vec![0; rays.len()], vec![0; losses.len()]);
    let (mut c, mut d) = (a.clone(), b.clone());
    let floats = rays.as_flattened();
    let (time, _) = beside(
        UNTIMED,
        name,
        rays.len(),
        &mut || {
            black_box(timed(black_box(floats), &mut a, &mut b));
        },
        &mut || {
            black_box(calls::report(&s.record, &s.list, losses, black_box(floats), &mut c, &mut d));
        },
    );
    assert!(a == c && b == d);
    looked(l, rays.len(), time);
    report_by(s, name, losses, rays, timed);
}

fn conversion(name: &str, t: &Tree, limit: u32, order: bool, checks: f64) {
    let spans = all_day(LEAVES);
    let mut side = vec![0; 16 * (LEAVES - 1)];
    let mut timed = |s: &mut _| timed_calls::bvh2_to_cwbvh(black_box(&t.nodes), &t.indices, limit, order, &spans, s, &mut side);
    let (mut a, mut b) = (lent(t), lent(t));
    let order_name = if order { "on" } else { "off" };
    beside(
        UNTIMED,
        &format!("{name}, limit {limit}, order {order_name}"),
        1,
        &mut || {
            black_box(timed(&mut a));
        },
        &mut || {
            black_box(calls::bvh2_to_cwbvh(black_box(&t.nodes), &t.indices, limit, order, &mut b));
        },
    );
    assert!(a.record == b.record && a.list == b.list);
    conversion_by(name, t, limit, order, checks, timed);
    let nodes = b.record.chunks_exact(80).take_while(|node| node.iter().any(|byte| *byte != 0)).count();
    assert!(side.starts_with(&side_table(&b.record[..80 * nodes])));
}

const QUERIES: [(&str, Rows); 3] = [("timed any-hit", any_hits), ("timed closest", closests), ("timed miss", misses)];

pub fn rows() {
    rows_of(&QUERIES);
    each_report("timed report", report);
    each_conversion("bvh2_to_cwbvh_timed", conversion);
}
