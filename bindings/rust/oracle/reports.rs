//! Reports of the package against the published any-hit, whose positions the driver adds up; against the rules where a
//! ray, a loss or the record is refused.
use crate::loss::{Call, MOST_LOSS, Report, Reported};
use crate::queries::{aimed, odd_ray};
use crate::rng::Rng;
use crate::scene::Scene;
use crate::tree::Tree;
use funnelcress::Record;
use obvhs::ray::Ray;

fn asked(c: &Call) -> Report {
    let rays: Vec<funnelcress::Ray> = c.ray_list().iter().map(crate::ours).collect();
    match Record::from_parts(c.record.clone(), c.list.clone()).report(c.panes, &c.losses, &rays) {
        Ok(r) => Report { refusal: 0, tests: r.tests, rays: r.rays, panes: r.panes },
        Err(refusal) => Report { refusal: refusal.number(), ..Default::default() },
    }
}

/// The call with a loss too great, one too many, a pane less, or a ray that may be refused; mostly as it was.
fn altered(rng: &mut Rng, mut c: Call) -> Call {
    match rng.below(12) {
        0 if c.panes > 0 => c.losses[rng.below(c.panes)] = rng.pick(&[MOST_LOSS + 1, u32::MAX]),
        1 => c.losses.push(0),
        2 if c.panes > 0 => {
            c.panes -= 1;
            c.losses.truncate(c.panes);
        }
        3 if c.count() > 0 => {
            let (mut rays, k) = (c.ray_list(), rng.below(c.count()));
            rays[k] = odd_ray(rng, &rays[k]);
            c = c.with_rays(&rays);
        }
        _ => {}
    }
    c
}

/// The same rays over a converted record, and altered over both it and a damaged one: how many reports, and how many refused.
pub fn same_reports(rng: &mut Rng, t: &Tree, s: &Scene, hurt: &Scene) -> [usize; 2] {
    let rays: Vec<Ray> = (0..rng.below(6)).map(|_| aimed(rng, t, &s.record)).collect();
    let call = Call::new(rng, &s.record, &s.list, &rays);
    assert_eq!(asked(&call), call.agreed());
    let sound = altered(rng, call.clone());
    let damaged = altered(rng, Call { record: hurt.record.clone(), list: hurt.list.clone(), ..call });
    let refused = [sound, damaged].map(|call| {
        let expected = call.report();
        assert_eq!(asked(&call), expected);
        (expected.refusal != 0) as usize
    });
    [1 + refused.len(), refused.iter().sum()]
}
