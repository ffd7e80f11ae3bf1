//! Stored queries with long lists: as many positions as any-hit keeps aside, one less, one more, and some thousand.
use crate::convert::convert;
use crate::generate::zero;
use crate::made::{MIDDLE, Made};
use crate::record::node;
use crate::rng::Rng;
use crate::scene::{Asked, Scene};
use crate::store::*;
use glam::vec3a;
use obvhs::ray::Ray;

/// Panes of a row of boxes: positions share them.
const PANES: u32 = 32;

/// Along the row of boxes, either way, with zeros of either sign.
pub fn along(rng: &mut Rng, back: bool) -> Ray {
    let (from, to) = if back { (1e6, -1.0) } else { (-1.0, 1.0) };
    let middle = MIDDLE as f32;
    let direction = vec3a(to * rng.between(0.5, 2.0), zero(rng), zero(rng));
    Ray::new(vec3a(from, middle, middle), direction, 0.0, f32::INFINITY)
}

/// The same with tmin where it has passed about a tenth of a row of n boxes.
fn later(r: &Ray, n: usize) -> Ray {
    let row = 16.0 * n as f32;
    let x = if r.direction.x < 0.0 { 0.9 * row } else { 0.1 * row };
    Ray { tmin: (x - r.origin.x) / r.direction.x, ..*r }
}

/// The record of a row of boxes, a few of which are its panes.
pub fn row(n: u32, seed: u32, limit: u32, order: bool) -> Scene {
    let made = Made { n, seed, reach: 64 };
    let mut t = made.tree();
    t.indices.iter_mut().for_each(|x| *x %= PANES);
    let c = convert(&t, limit, order);
    Scene { record: c.record, list: c.list, panes: made.panes(PANES) }
}

/// The same record with the last of its nodes broken, which a ray along the row meets somewhere.
fn broken(s: &Scene) -> Scene {
    let mut s = s.clone();
    let last = s.record.len() - 80;
    assert!(node(&s.record[last..], 0).imask() == 0);
    s.record[last + 12] = 0;
    s
}

pub fn groups(seed: u64) -> Vec<Group> {
    let mut rng = Rng::new(seed);
    let rng = &mut rng;
    let mut g = Group::new(LONG_LISTS, 0);
    for (k, n) in [63, 64, 65, 255, 256, 257, 1023, 1024, 1025, 1400].into_iter().enumerate() {
        let s = row(n as u32, k as u32, 1 + k as u32 % 3, k % 2 == 0);
        let mut rooms = vec![n + 3, n, n - 1, 0];
        rooms.extend([64, 255, 256, 257, 1024, 1025].into_iter().filter(|&room| room < n));
        let ray = |rng: &mut Rng, i: usize| along(rng, (i + k) % 2 == 0);
        let mut asked: Vec<Asked> = rooms.iter().enumerate().map(|(i, &room)| Asked { ray: ray(rng, i), n, room }).collect();
        asked.iter().for_each(|q| assert_eq!(s.agreed(&q.ray).any.found.len(), n));
        if k % 4 == 1 {
            let ray = later(&asked[0].ray, n);
            assert!((4 * n / 5..n).contains(&s.agreed(&ray).any.found.len()));
            asked.push(Asked { ray, n, room: n });
        }
        g.add(s.case(&asked));
        if n > 256 && k % 2 == 1 {
            let b = broken(&s);
            asked.iter().for_each(|q| assert_eq!(b.by_rules(q).any.refusal, 10));
            g.add(b.case(&asked[..4]));
        }
    }
    vec![g]
}
