//! Rows: calls timed in turn, and what is printed of them.
use std::hint::black_box;

const RUNS: usize = 31;

#[repr(C)]
struct Time {
    seconds: i64,
    nanoseconds: i64,
}

unsafe extern "C" {
    fn clock_gettime(clock: i32, time: *mut Time) -> i32;
}

/// CLOCK_THREAD_CPUTIME_ID of Linux.
const THREAD_CLOCK: i32 = 3;

/// The processor's seconds of this thread: waiting for a busy machine is not counted.
fn now() -> f64 {
    let mut t = Time { seconds: 0, nanoseconds: 0 };
    assert_eq!(unsafe { clock_gettime(THREAD_CLOCK, &mut t) }, 0);
    t.seconds as f64 + t.nanoseconds as f64 * 1e-9
}

/// Seconds of so many calls.
fn time(calls: usize, f: &mut dyn FnMut()) -> f64 {
    let start = now();
    (0..calls).for_each(|_| f());
    now() - start
}

/// Seconds in a unit that suits them.
pub fn shown(seconds: f64) -> String {
    if seconds < 1e-4 { format!("{:.2} ns", seconds * 1e9) } else { format!("{:.3} ms", seconds * 1e3) }
}

/// As many calls as take some ten milliseconds.
fn enough(once: f64) -> usize {
    (0.01 / once) as usize + 1
}

/// Whether a row is wanted: an argument `rows=TEXT` keeps those whose name has the text.
pub fn picked(name: &str) -> bool {
    let mut texts = std::env::args().filter_map(|a| a.strip_prefix("rows=").map(str::to_owned)).peekable();
    texts.peek().is_none() || texts.any(|t| name.contains(&t))
}

/// Whether each side of a row is to run once, for a count of its instructions.
fn once() -> bool {
    std::env::args().any(|a| a == "once")
}

/// Functions by whose names a profile tells the sides of a row; each has a number of its own, so that they are not merged.
#[inline(never)]
fn first_once(f: &mut dyn FnMut()) {
    f();
    black_box(0);
}

#[inline(never)]
fn second_once(f: &mut dyn FnMut()) {
    f();
    black_box(1);
}

/// Runs both in turn and prints the row: the time of the first over the second's, and the best time of each for one of the `items`
/// that a call works on, which it also returns.
pub fn beside(sides: &str, name: &str, items: usize, first: &mut dyn FnMut(), second: &mut dyn FnMut()) -> (f64, f64) {
    if once() {
        println!("{name}, each once");
        first_once(first);
        second_once(second);
        return (f64::NAN, f64::NAN);
    }
    let calls = enough(time(5, first).max(time(5, second)) / 5.0);
    let mut ratios = vec![];
    let (mut a, mut b) = (f64::MAX, f64::MAX);
    for k in 0..RUNS {
        let (x, y) = if k % 2 == 0 {
            let x = time(calls, first);
            (x, time(calls, second))
        } else {
            let y = time(calls, second);
            (time(calls, first), y)
        };
        ratios.push(x / y);
        (a, b) = (a.min(x), b.min(y));
    }
    ratios.sort_by(f64::total_cmp);
    let (least, middle, greatest) = (ratios[0], ratios[RUNS / 2], ratios[RUNS - 1]);
    let [a, b] = [a, b].map(|t| t / (calls * items) as f64);
    println!(
        "{name:<56} {sides}: {middle:.2} (least {least:.2}, greatest {greatest:.2}); best times {} and {}",
        shown(a),
        shown(b)
    );
    (a, b)
}

/// The row of ours beside the Rust.
pub fn row(name: &str, items: usize, ours: &mut dyn FnMut(), rust: &mut dyn FnMut()) -> (f64, f64) {
    beside("ours / Rust", name, items, ours, rust)
}

/// Seconds for one of the items that a call works on, of each run, the least first.
fn sorted_times(items: usize, f: &mut dyn FnMut()) -> Vec<f64> {
    let calls = enough(time(5, f) / 5.0);
    let mut times: Vec<f64> = (0..RUNS).map(|_| time(calls, f) / (calls * items) as f64).collect();
    times.sort_by(f64::total_cmp);
    times
}

/// The best time of a call by itself, with no row of its own.
pub fn best(f: &mut dyn FnMut()) -> f64 {
    sorted_times(1, f)[0]
}

/// A row of ours alone, where the Rust has nothing to measure it by.
pub fn alone(name: &str, items: usize, ours: &mut dyn FnMut()) -> f64 {
    if once() {
        println!("{name}, once");
        first_once(ours);
        return f64::NAN;
    }
    let times = sorted_times(items, ours);
    let [least, middle, greatest] = [0, RUNS / 2, RUNS - 1].map(|k| shown(times[k]));
    println!("{name:<56} ours: {middle} (least {least}, greatest {greatest}); nothing in the Rust");
    times[0]
}
