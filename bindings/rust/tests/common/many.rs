//! Many panes, their losses, and many rays from one point.
use funnelcress::{Pane, Ray};

pub fn panes() -> Vec<Pane> {
    let pane = |k: i32| {
        let (x, y, z) = ((k % 20) as f32, (k / 20) as f32, (k % 7) as f32);
        [x, y, z, x + 0.9, y + 0.9, z + 0.1]
    };
    (0..300).map(pane).collect()
}

pub fn rays(count: i32) -> Vec<Ray> {
    let ray = |k: i32| Ray::new([10.0, 7.0, -1.0], [(k % 31 - 15) as f32, (k % 23 - 11) as f32, 1.0 + (k % 11) as f32]);
    (0..count).map(ray).collect()
}

pub fn losses() -> Vec<u32> {
    (0..300).map(|k| k * 3331 % 1_000_001).collect()
}
