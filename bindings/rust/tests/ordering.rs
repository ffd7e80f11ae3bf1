//! A tree converted with ordering and without: what rays meet and lose in both records.
use funnelcress::{Options, Pane, Ray, Record, Tree};

/// A sloping roof of 8 by 12 panes, each as wide as long, and a wall of 12 under it.
fn house() -> Vec<Pane> {
    let roof = (0..96).map(|k| {
        let (x, y) = ((k % 8) as f32, (k / 8) as f32);
        [x, y, 4.0 + x / 2.0, x + 1.0, y + 1.0, 4.5 + x / 2.0]
    });
    let wall = (0..12).map(|k| [0.0, k as f32, 0.0, 0.0, k as f32 + 1.0, 4.0]);
    roof.chain(wall).collect()
}

/// Rays from benches to all sides of the sky, some from above a mast.
fn rays() -> Vec<Ray> {
    let aim = |k: u32| [(k % 7) as f32 - 3.0, (k / 7 % 5) as f32 - 2.0, 1.0 + (k / 35 % 3) as f32];
    (0..420).map(|k| Ray::new([4.0 + (k % 4) as f32 / 3.0, 6.0, 1.0], aim(k)).starting((k % 3) as f32 / 2.0)).collect()
}

/// The record of a tree with its children ordered, and the one with them as gathered.
fn both(tree: &Tree, limit: u32) -> [Record; 2] {
    [true, false].map(|ordered| tree.convert(Options { limit, ordered }).unwrap())
}

/// The panes that a ray meets, in rising order, and the node tests.
fn met(record: &Record, ray: &Ray) -> (Vec<u32>, u32) {
    let any = record.any_hit(ray).unwrap();
    let mut panes: Vec<u32> = any.positions.iter().map(|&p| record.indices()[p as usize]).collect();
    panes.sort();
    (panes, any.tests)
}

#[test]
fn alters_no_report() {
    let (panes, rays) = (house(), rays());
    let losses: Vec<u32> = (0..panes.len() as u32).map(|k| 1000 + k).collect();
    for limit in 0..4 {
        let [ordered, gathered] = both(&Tree::over(&panes), limit);
        assert_ne!(ordered.bytes(), gathered.bytes());
        assert_eq!(ordered.bytes().len(), gathered.bytes().len());
        assert_eq!(ordered.check(), gathered.check());
        for ray in &rays {
            assert_eq!(met(&ordered, ray), met(&gathered, ray));
            assert_eq!(ordered.miss(&panes, ray).unwrap().missed, gathered.miss(&panes, ray).unwrap().missed);
            let hits = [&ordered, &gathered].map(|r| r.closest(&panes, ray).unwrap().hit.is_some());
            assert_eq!(hits[0], hits[1]);
        }
        let report = ordered.report(panes.len(), &losses, &rays).unwrap();
        assert!(report.tests > rays.len() as u64 && report.panes.iter().any(|&total| total > 0));
        assert_eq!(report, gathered.report(panes.len(), &losses, &rays).unwrap());
    }
}
