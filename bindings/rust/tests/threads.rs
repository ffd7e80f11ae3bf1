//! One record asked from many threads gives the answers that one thread gets.
#[path = "common/many.rs"]
mod many;

use funnelcress::{Options, Ray, Record, Refusal, Tree, on_threads, report_on_threads};
use many::{losses, panes, rays};

fn record() -> Record {
    Tree::over(&panes()).convert(Options::default()).unwrap()
}

const THREADS: [usize; 5] = [0, 2, 3, 8, 6000];

#[test]
fn many_threads_agree_with_one() {
    let (panes, record, rays) = (panes(), record(), rays(5000));
    let asked = |threads| {
        on_threads(threads, &rays, |r| {
            let walked: Result<Vec<u32>, _> = record.walk(r).unwrap().collect();
            (record.any_hit(r), record.closest(&panes, r), record.miss(&panes, r), walked)
        })
    };
    let alone = asked(1);
    assert!(alone.iter().any(|a| a.1.unwrap().hit.is_some()));
    for (any, _, _, walked) in &alone {
        assert_eq!(any.as_ref().map(|a| &a.positions), walked.as_ref());
    }
    for threads in THREADS {
        assert_eq!(asked(threads), alone);
    }
}

/// The parts of a report add up to what one call gives, and each ray loses what it loses alone.
#[test]
fn reports_in_parts() {
    let (record, rays, losses) = (record(), rays(5000), losses());
    let whole = record.report(300, &losses, &rays).unwrap();
    assert_eq!(whole.rays.iter().sum::<u64>(), whole.panes.iter().sum());
    assert!(whole.rays.iter().any(|loss| *loss > 0));
    for (ray, loss) in rays.iter().zip(&whole.rays).step_by(50) {
        assert_eq!(record.report(300, &losses, &[*ray]).unwrap().rays, [*loss]);
    }
    for threads in THREADS {
        assert_eq!(report_on_threads(threads, &record, 300, &losses, &rays).as_ref(), Ok(&whole));
    }
    for few in [&rays[..0], &rays[..1]] {
        assert_eq!(report_on_threads(8, &record, 300, &losses, few), record.report(300, &losses, few));
    }
}

/// A report in parts is refused as one call is: for a bad ray before a bad index, and for too many rays in all.
#[test]
fn refused_parts() {
    let (record, mut rays) = (record(), rays(5000));
    let refused = |panes, losses: &[u32], rays: &[Ray]| {
        let whole = record.report(panes, losses, rays).unwrap_err();
        for threads in THREADS {
            assert_eq!(report_on_threads(threads, &record, panes, losses, rays), Err(whole));
        }
        whole
    };
    assert_eq!(refused(1, &[5], &rays), Refusal::Record);
    rays.last_mut().unwrap().tmax = f32::NAN;
    assert_eq!(refused(1, &[5], &rays), Refusal::Ray);
    assert_eq!(refused(1, &[5, 5], &rays), Refusal::Losses);
    rays.resize(65_537, rays[0]);
    assert_eq!(refused(1, &[5, 5], &rays), Refusal::TooMany);
}
