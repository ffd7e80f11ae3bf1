//! The samples of the requirements, through the safe types.
#[path = "common/chain.rs"]
mod chain;
mod common;

use chain::chain;
use common::{PANES, node, sample};
use funnelcress::{Hit, Link, Options, Ray, Record, Refusal, Report, State, Step, Tree, Verdict, entry_distances};

/// Its record, the children as gathered.
fn unordered() -> Record {
    sample().convert(Options { limit: 3, ordered: false }).unwrap()
}

/// One leaf with a box from 0 to an extent on x.
fn lone(extent: f32) -> Tree {
    Tree::from_nodes(&[node([0.0; 3], [extent, 0.0, 0.0], Link::Leaf(0))], vec![0]).unwrap()
}

fn next_up(x: f32) -> f32 {
    f32::from_bits(x.to_bits() + 1)
}

#[test]
fn exponents() {
    let byte = |extent| lone(extent).convert(Options::default()).unwrap().bytes()[12];
    assert_eq!(sample().convert(Options::default()).unwrap().bytes()[12..15], [121, 120, 120]);
    assert_eq!((byte(255.0), byte(next_up(255.0))), (127, 128));
    assert_eq!((byte(261_120.0), byte(next_up(261_120.0))), (137, 138));
    assert_eq!(byte(0.0), 53);
}

#[test]
fn the_record() {
    let record = unordered();
    let hex: String = record.bytes().iter().map(|b| format!("{b:02x}")).collect();
    let head = "0000000000000000000000007978780001000000000000002021000000000000";
    let ends = "008000000000000040c00000000000000000000000000000808000000000000000000000000000008080000000000000";
    assert_eq!(hex, format!("{head}{ends}"));
    assert_eq!(record.indices(), [0, 1]);
    assert_eq!(record.check(), Ok(Verdict::Sound(0)));
}

#[test]
fn ordering_seats_the_second_leaf_in_slot_4() {
    let record = sample().convert(Options::default()).unwrap();
    assert_eq!(record.bytes()[24..32], [0x20, 0, 0, 0, 0x21, 0, 0, 0]);
}

/// The ray meets both panes by one test, the first at 1.
fn meets_both(record: &Record, ray: &Ray) {
    let met = record.any_hit(ray).unwrap();
    assert_eq!((met.positions, met.tests), (vec![1, 0], 1));
    let closest = record.closest(&PANES, ray).unwrap();
    assert_eq!((closest.hit, closest.tests), (Some(Hit { position: 0, distance: 1.0 }), 1));
    assert!(!record.miss(&PANES, ray).unwrap().missed);
    let positions: Vec<u32> = record.walk(ray).unwrap().map(Result::unwrap).collect();
    assert_eq!(positions, [1, 0]);
}

#[test]
fn queries() {
    meets_both(&unordered(), &Ray::new([-1.0, 0.5, 0.5], [1.0, 0.0, 0.0]));
}

/// The start: slots that end before it are not passed, panes entered before it are no hits.
#[test]
fn starts() {
    let record = unordered();
    let ray = Ray::new([-1.0, 0.5, 0.5], [1.0, 0.0, 0.0]);
    let hit = |ray: &Ray| record.closest(&PANES, ray).unwrap().hit.map(|h| (h.position, h.distance));
    for (tmin, listed, nearest) in [
        (1.0, vec![1, 0], Some((0, 1.0))),
        (1.5, vec![1, 0], Some((1, 3.0))),
        (2.5, vec![1], Some((1, 3.0))),
        (3.0, vec![1], Some((1, 3.0))),
        (3.5, vec![1], None),
        (4.5, vec![], None),
        (f32::INFINITY, vec![], None),
    ] {
        let met = record.any_hit(&ray.starting(tmin)).unwrap();
        assert_eq!((met.positions, met.tests), (listed, 1));
        assert_eq!(hit(&ray.starting(tmin)), nearest);
        assert_eq!(record.miss(&PANES, &ray.starting(tmin)).unwrap().missed, nearest.is_none());
    }
    let within = Ray::new([0.5; 3], [1.0, 0.0, 0.0]);
    assert_eq!((hit(&within), hit(&within.starting(-1.0))), (Some((1, 1.5)), Some((0, -0.5))));
}

/// The ray with +0.0 for each −0.0 of its origin and its direction.
fn neighbour(ray: &Ray) -> Ray {
    let read = |v: [f32; 3]| v.map(|x| x + 0.0);
    Ray { origin: read(ray.origin), direction: read(ray.direction), ..*ray }
}

/// The words of a walker just begun; the steps to the end, with the words after each; and the bits of the entry distances.
fn walked_and_entered(record: &Record, ray: &Ray) -> (State, Vec<(Step, State)>, Vec<u32>) {
    let mut walker = record.walk(ray).unwrap();
    let begun = walker.state().clone();
    let mut steps = vec![];
    while steps.last().is_none_or(|(step, _)| *step != Step::Done) {
        steps.push((walker.step().unwrap(), walker.state().clone()));
    }
    (begun, steps, entry_distances(&PANES, ray).unwrap().into_iter().map(f32::to_bits).collect())
}

/// −0.0 in a direction or an origin is read as +0.0.
#[test]
fn negative_zeros() {
    let record = unordered();
    for (origin, direction) in [
        ([-1.0, 0.5, 0.5], [1.0, -0.0, 0.0]),
        ([-1.0, 0.5, 0.5], [1.0, 0.0, -0.0]),
        ([-1.0, 0.5, 0.5], [1.0, -0.0, -0.0]),
        ([-1.0, -0.0, 0.5], [1.0, 0.0, 0.0]),
    ] {
        let ray = Ray::new(origin, direction);
        meets_both(&record, &ray);
        assert_eq!(walked_and_entered(&record, &ray), walked_and_entered(&record, &neighbour(&ray)));
    }
}

/// A direction of zeros alone is not refused, whatever their signs.
#[test]
fn no_direction() {
    let record = unordered();
    let ray = Ray::new([0.5; 3], [-0.0; 3]).starting(f32::NEG_INFINITY);
    let met = record.any_hit(&ray).unwrap();
    assert_eq!((met.positions, met.tests), (vec![0], 1));
    let inside = Hit { position: 0, distance: -0.5 * 2f32.powi(23) };
    assert_eq!(record.closest(&PANES, &ray).unwrap().hit, Some(inside));
    assert!(!record.miss(&PANES, &ray).unwrap().missed);
    assert_eq!(walked_and_entered(&record, &ray), walked_and_entered(&record, &neighbour(&ray)));
}

#[test]
fn no_leaves() {
    let record = Tree::from_words(vec![], vec![]).convert(Options::default()).unwrap();
    assert_eq!((record.bytes().len(), record.check()), (0, Ok(Verdict::Sound(0))));
    let met = record.any_hit(&Ray::new([0.0; 3], [1.0, 0.0, 0.0])).unwrap();
    assert_eq!((met.positions, met.tests), (vec![], 0));
    assert!(record.miss(&[], &Ray::new([0.0; 3], [1.0, 0.0, 0.0])).unwrap().missed);
    assert_eq!(record.walk(&Ray::new([0.0; 3], [1.0, 0.0, 0.0])).unwrap().count(), 0);
}

/// The ray along x takes both losses by one test; reaching to 2.5 it meets the first pane alone.
#[test]
fn reports() {
    let record = unordered();
    let along = Ray::new([-1.0, 0.5, 0.5], [1.0, 0.0, 0.0]);
    let report = |record: &Record, rays: &[Ray]| record.report(2, &[3000, 500], rays).unwrap();
    let totals = |rays: &[u64], panes: &[u64], tests| Report { rays: rays.into(), panes: panes.into(), tests };
    assert_eq!(report(&record, &[along]), totals(&[3500], &[3000, 500], 1));
    assert_eq!(report(&record, &[along, along.reaching(2.5)]), totals(&[3500, 3000], &[6000, 500], 2));
    let twice = Record::from_parts(record.bytes().to_vec(), vec![1, 1]);
    assert_eq!(report(&twice, &[along]), totals(&[1000], &[0, 1000], 1));
    assert_eq!(report(&record, &[]), totals(&[], &[0, 0], 0));
    assert_eq!(report(&Record::from_parts(vec![], vec![]), &[along]), totals(&[0], &[0, 0], 0));
}

/// Three losses for two panes are refused 12, whatever the ray is; a byte short comes first.
#[test]
fn refused_reports() {
    let record = unordered();
    let cut = Record::from_parts(record.bytes()[..79].to_vec(), record.indices().to_vec());
    let along = Ray::new([-1.0, 0.5, 0.5], [1.0, 0.0, 0.0]);
    for ray in [along, along.reaching(f32::NAN)] {
        assert_eq!(record.report(2, &[3000, 500, 1], &[ray]), Err(Refusal::Losses));
        assert_eq!(cut.report(2, &[3000, 500, 1], &[ray]), Err(Refusal::Length));
    }
}

#[test]
fn limits() {
    assert!(sample().convert(Options { limit: 3, ordered: true }).is_ok());
    assert_eq!(sample().convert(Options { limit: 4, ordered: true }), Err(Refusal::Limit));
    let bound = 2f32.powi(40);
    assert!(lone(bound).convert(Options::default()).is_ok());
    assert_eq!(lone(next_up(bound)).convert(Options::default()), Err(Refusal::Box));
    let deep = chain(33).convert(Options { limit: 1, ordered: false }).unwrap();
    assert_eq!(deep.check(), Ok(Verdict::Sound(31)));
    assert_eq!(chain(34).convert(Options { limit: 1, ordered: false }), Err(Refusal::Level));
}

#[test]
fn a_record_kept_and_read_again() {
    let record = sample().convert(Options::default()).unwrap();
    let again = Record::from_parts(record.bytes().to_vec(), record.indices().to_vec());
    assert_eq!(again, record);
}
