//! Many rays at once: how any-hit over one record grows with the threads that share the rays.
//!
//!     cargo run --release --example many_rays [PANES [RAYS]]
use funnelcress::{AnyHit, Options, Pane, Ray, Record, Refusal, Tree, cores, on_threads};
use std::time::Instant;

/// Numbers from 0 to 1, the same in each run.
struct Drawn(u64);

impl Drawn {
    fn next(&mut self) -> f32 {
        self.0 = self.0.wrapping_mul(6364136223846793005).wrapping_add(1442695040888963407);
        (self.0 >> 40) as f32 / (1 << 24) as f32
    }
}

fn panes(drawn: &mut Drawn, count: usize) -> Vec<Pane> {
    let side = (count as f32).sqrt();
    let mut one = |_| {
        let (x, y, z) = (side * drawn.next(), side * drawn.next(), 4.0 * drawn.next());
        [x, y, z, x + 1.0, y + 1.0, z + 0.02]
    };
    (0..count).map(&mut one).collect()
}

fn rays(drawn: &mut Drawn, count: usize, side: f32) -> Vec<Ray> {
    let mut one = |_| {
        let direction = [drawn.next() - 0.5, drawn.next() - 0.5, 0.1 + drawn.next()];
        Ray::new([side * drawn.next(), side * drawn.next(), 0.0], direction)
    };
    (0..count).map(&mut one).collect()
}

/// The best time of seven runs, and how many positions were met.
fn timed(record: &Record, rays: &[Ray], threads: usize) -> Result<(f64, usize), Refusal> {
    let mut best = (f64::INFINITY, 0);
    for _ in 0..7 {
        let begun = Instant::now();
        let answers: Result<Vec<AnyHit>, Refusal> =
            on_threads(threads, rays, |r| record.any_hit(r)).into_iter().collect();
        let time = begun.elapsed().as_secs_f64();
        best = (best.0.min(time), answers?.iter().map(|a| a.positions.len()).sum());
    }
    Ok(best)
}

fn main() -> Result<(), Refusal> {
    let mut args = std::env::args().skip(1).map(|a| a.parse().expect("a number"));
    let (panes_count, rays_count) = (args.next().unwrap_or(20_000), args.next().unwrap_or(200_000));
    let drawn = &mut Drawn(1);
    let panes = panes(drawn, panes_count);
    let rays = rays(drawn, rays_count, (panes_count as f32).sqrt());
    let record = Tree::over(&panes).convert(Options::default())?;
    println!("{panes_count} panes, {rays_count} rays, the best of seven runs");
    let mut alone = None;
    for threads in (0..).map(|k| 1 << k).take_while(|t| *t <= cores()) {
        let (time, met) = timed(&record, &rays, threads)?;
        let growth = *alone.get_or_insert(time) / time;
        let rate = rays_count as f64 / time / 1e6;
        println!(
            "{threads} threads: {time:.3} s, {rate:.2} million rays a second, {growth:.2} times one thread ({met} met)"
        );
    }
    Ok(())
}
