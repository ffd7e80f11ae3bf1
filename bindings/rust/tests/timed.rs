//! Quarter hours: the samples of the requirements, all-day spans, other spans against their definition, and threads.
mod common;
#[path = "common/many.rs"]
mod many;

use common::{PANES, node, sample};
use funnelcress::{
    ALL_DAY, Link, Options, Pane, Ray, Record, Refusal, Report, SIDE_BYTES, Span, TimedRecord, Tree, Verdict,
    timed_report_on_threads,
};
use many::{losses, panes, rays};

const UNORDERED: Options = Options { limit: 3, ordered: false };

/// The spans of the sample's two panes, and its losses.
const SPANS: [Span; 2] = [[32, 63], [60, 95]];
const LOSSES: [u32; 2] = [3000, 500];

fn timed() -> TimedRecord {
    sample().convert_timed(2, &SPANS, UNORDERED).unwrap()
}

fn along() -> Ray {
    Ray::new([-1.0, 0.5, 0.5], [1.0, 0.0, 0.0])
}

#[test]
fn the_side_table() {
    let timed = timed();
    assert_eq!(timed.side(), [0x20, 0x3f, 0x3c, 0x5f, 0, 0, 0, 0, 0, 0, 0, 0, 0, 0, 0, 0]);
    assert_eq!(timed.record(), &sample().convert(UNORDERED).unwrap());
    assert_eq!(timed.record().check(), Ok(Verdict::Sound(0)));
    assert_eq!(Tree::over(&PANES).convert_timed(2, &SPANS, UNORDERED), Ok(timed));
}

/// At 40 the ray meets the first pane, at 61 both, at 70 the second, at 10 none, each time by one test.
#[test]
fn hours() {
    let report = |rays: &[Ray], quarters: &[u8]| timed().report(2, &SPANS, &LOSSES, rays, quarters).unwrap();
    for (quarter, ray, panes) in
        [(40, 3000, [3000, 0]), (61, 3500, [3000, 500]), (70, 500, [0, 500]), (10, 0, [0, 0]), (32, 3000, [3000, 0])]
    {
        assert_eq!(report(&[along()], &[quarter]), Report { rays: vec![ray], panes: panes.into(), tests: 1 });
    }
    let all = report(&[along(); 4], &[40, 61, 70, 10]);
    assert_eq!(all, Report { rays: vec![3000, 3500, 500, 0], panes: vec![6000, 1000], tests: 4 });
    assert_eq!(report(&[], &[]), Report { rays: vec![], panes: vec![0, 0], tests: 0 });
}

#[test]
fn refusals() {
    let convert = |panes, spans: &[Span], limit| sample().convert_timed(panes, spans, Options { limit, ..UNORDERED });
    for spans in [&[[63, 32], [60, 95]][..], &[[32, 63], [60, 96]], &[[96, 96], [60, 95]], &SPANS[..1]] {
        assert_eq!(convert(2, spans, 3), Err(Refusal::Spans));
        assert_eq!(convert(2, spans, 4), Err(Refusal::Limit));
    }
    assert_eq!(convert(1, &SPANS[..1], 3), Err(Refusal::Spans));
    assert!(convert(3, &[SPANS[0], SPANS[1], ALL_DAY], 3).is_ok());
    let with = |at: usize, word: u32, spans: &[Span]| {
        let mut words = sample().words().to_vec();
        words[at] = word;
        Tree::from_words(words, sample().indices().to_vec()).convert_timed(2, spans, UNORDERED).unwrap_err().number()
    };
    assert_eq!((with(20, 1 << 30, &SPANS[..1]), with(20, 1 << 30, &SPANS)), (14, 7));
    assert_eq!((with(7, f32::NAN.to_bits(), &SPANS[..1]), with(6, 2 << 30, &SPANS[..1])), (6, 5));
    let report = |ray: Ray, spans: &[Span], quarters: &[u8]| timed().report(2, spans, &LOSSES, &[ray], quarters).err();
    for ray in [along(), along().reaching(f32::NAN)] {
        assert_eq!(report(ray, &SPANS, &[96]), Some(Refusal::Spans));
        assert_eq!(report(ray, &SPANS[..1], &[40]), Some(Refusal::Spans));
        assert_eq!(report(ray, &SPANS, &[]), Some(Refusal::Length));
    }
    assert_eq!(report(along().reaching(f32::NAN), &SPANS, &[40]), Some(Refusal::Ray));
    let cut = TimedRecord::from_parts(timed().into_record(), timed().side()[..15].to_vec());
    assert_eq!(cut.report(2, &SPANS, &LOSSES, &[along()], &[40]), Err(Refusal::Spans));
}

/// A slot's span in the table is used as it stands there; one whose first is past its last holds nothing.
#[test]
fn tables_as_read() {
    let met = |side: [u8; 4]| {
        let table = [&side[..], &[0; 12]].concat();
        let timed = TimedRecord::from_parts(timed().into_record(), table);
        timed.report(2, &SPANS, &LOSSES, &[along()], &[61]).unwrap().rays[0]
    };
    assert_eq!((met([0, 255, 0, 255]), met([61, 61, 62, 60]), met([255, 0, 61, 255])), (3500, 3000, 500));
}

/// Without leaves there is no side table; one leaf has one row.
#[test]
fn corners() {
    let empty = Tree::from_words(vec![], vec![]).convert_timed(0, &[], UNORDERED).unwrap();
    assert_eq!((empty.side(), empty.record().bytes()), (&[][..], &[][..]));
    assert_eq!(empty.report(0, &[], &[], &[along()], &[95]).unwrap().rays, [0]);
    let lone = Tree::from_nodes(&[node([0.0; 3], [1.0; 3], Link::Leaf(0))], vec![0]).unwrap();
    let timed = lone.convert_timed(1, &[[95, 95]], UNORDERED).unwrap();
    assert_eq!((timed.side().len(), &timed.side()[..4]), (16, &[95, 95, 0, 0][..]));
    let at = |quarter| timed.report(1, &[[95, 95]], &[7], &[along()], &[quarter]).unwrap().rays[0];
    assert_eq!((at(94), at(95)), (0, 7));
}

/// Leaf children of two panes each are passed between the hours of both, and nothing of them is met there.
#[test]
fn between_two_spans() {
    let pane = |k: usize| [k as f32, 0.0, 0.0, k as f32 + 0.5, 1.0, 1.0];
    let places: Vec<Pane> = (0..16).map(|k| pane(k / 2)).collect();
    let spans = [[0, 10], [90, 95]].repeat(8);
    let timed = Tree::over(&places).convert_timed(16, &spans, UNORDERED).unwrap();
    assert_eq!(timed.side(), ALL_DAY.repeat(8));
    let report = timed.report(16, &spans, &[1, 10].repeat(8), &[along(); 3], &[10, 50, 90]).unwrap();
    assert_eq!((report.rays, report.tests), (vec![8, 0, 80], 3));
}

fn quarters() -> Vec<u8> {
    (0..2000).map(|k| (k * 37 % 96) as u8).collect()
}

/// Spans of every length, some of a single quarter hour.
fn spans() -> Vec<Span> {
    let span = |k: usize| {
        let first = k * 29 % 96;
        [first as u8, (first + k * 13 % (96 - first)) as u8]
    };
    (0..300).map(span).collect()
}

/// Where every pane is always there the record and every report are the untimed ones.
#[test]
fn all_day() {
    let (tree, spans) = (Tree::over(&panes()), vec![ALL_DAY; 300]);
    let record = tree.convert(Options::default()).unwrap();
    let timed = tree.convert_timed(300, &spans, Options::default()).unwrap();
    assert_eq!(timed.record(), &record);
    let report = timed.report(300, &spans, &losses(), &rays(2000), &quarters());
    assert_eq!(report, record.report(300, &losses(), &rays(2000)));
}

/// A ray loses to the positions that any-hit lists whose panes are there.
#[test]
fn by_own_spans() {
    let (tree, spans, losses) = (Tree::over(&panes()), spans(), losses());
    let timed = tree.convert_timed(300, &spans, Options::default()).unwrap();
    assert_eq!(timed.side().len() / SIDE_BYTES, timed.record().bytes().len() / 80);
    let report = timed.report(300, &spans, &losses, &rays(2000), &quarters()).unwrap();
    let mut panes = vec![0u64; 300];
    for ((ray, quarter), total) in rays(2000).iter().zip(quarters()).zip(&report.rays) {
        let met = timed.record().any_hit(ray).unwrap().positions.into_iter();
        let named = met.map(|position| timed.record().indices()[position as usize] as usize);
        let there: Vec<usize> = named.filter(|pane| (spans[*pane][0]..=spans[*pane][1]).contains(&quarter)).collect();
        there.iter().for_each(|pane| panes[*pane] += u64::from(losses[*pane]));
        assert_eq!(there.iter().map(|pane| u64::from(losses[*pane])).sum::<u64>(), *total);
    }
    assert_eq!(panes, report.panes);
    assert!(report.tests < timed.record().report(300, &losses, &rays(2000)).unwrap().tests);
}

/// The parts of a report add up to what one call gives, and are refused as one call is: 14 before 9, and 9 before 10.
#[test]
fn in_parts() {
    let (spans, losses, mut rays, mut quarters) = (spans(), losses(), rays(2000), quarters());
    let timed = Tree::over(&panes()).convert_timed(300, &spans, Options::default()).unwrap();
    let nowhere = Record::from_parts(timed.record().bytes().to_vec(), vec![300; 300]);
    let broken = TimedRecord::from_parts(nowhere, timed.side().to_vec());
    let refused = |timed: &TimedRecord, rays: &[Ray], quarters: &[u8]| {
        let whole = timed.report(300, &spans, &losses, rays, quarters);
        for threads in [0, 1, 2, 3, 8, 6000] {
            assert_eq!(timed_report_on_threads(threads, timed, 300, &spans, &losses, rays, quarters), whole);
        }
        whole.err()
    };
    assert_eq!(refused(&timed, &rays, &quarters), None);
    assert_eq!(refused(&timed, &rays, &quarters[1..]), Some(Refusal::Length));
    assert_eq!(refused(&broken, &rays, &quarters), Some(Refusal::Record));
    rays[1999].tmax = f32::NAN;
    assert_eq!(refused(&broken, &rays, &quarters), Some(Refusal::Ray));
    quarters[1000] = 96;
    assert_eq!(refused(&broken, &rays, &quarters), Some(Refusal::Spans));
    rays.resize(65_537, along());
    quarters.resize(65_537, 0);
    assert_eq!(refused(&broken, &rays, &quarters), Some(Refusal::TooMany));
}
