//! Lines, plain or as JSON, and the progress of long work.
use crate::failure::Failure;
use funnelcress::Refusal;
use std::io::{self, IsTerminal, Write};
use std::time::{Duration, Instant};

/// Writes text to standard output; a full disk or a closed pipe is a failure.
pub fn text(text: &str) -> Result<(), Failure> {
    let mut out = io::stdout().lock();
    out.write_all(text.as_bytes())?;
    Ok(out.flush()?)
}

/// Numbers with a separator between them.
pub fn joined(numbers: &[u32], between: &str) -> String {
    numbers.iter().map(u32::to_string).collect::<Vec<_>>().join(between)
}

/// The losses of rays or of panes, a line each.
pub fn totals(kind: &str, losses: &[u64], json: bool) -> String {
    let line = |(number, loss): (usize, &u64)| match json {
        true => format!("{{\"{kind}\":{number},\"loss\":{loss}}}\n"),
        false => format!("{kind} {number} {loss}\n"),
    };
    losses.iter().enumerate().map(line).collect()
}

/// The node tests of a report as a line.
pub fn tests(tests: u64, json: bool) -> String {
    if json { format!("{{\"tests\":{tests}}}\n") } else { format!("tests {tests}\n") }
}

/// A ray's refusal as a line.
pub fn refused(ray: usize, refusal: Refusal, json: bool) -> String {
    let number = refusal.number();
    if json {
        return format!(
            "{{\"ray\":{ray},\"refused\":{number},\"message\":\"{}\"}}",
            refusal.to_string().replace('"', "'")
        );
    }
    format!("{ray} refused {number}")
}

/// A line on standard error that says how far the work is, where that is a terminal and the work takes a while.
pub struct Progress {
    since: Instant,
    shown: bool,
    total: usize,
}

impl Progress {
    pub fn new(total: usize) -> Progress {
        Progress { since: Instant::now(), shown: false, total }
    }

    pub fn at(&mut self, done: usize) {
        if self.since.elapsed() > Duration::from_secs(1) && io::stderr().is_terminal() {
            eprint!("\r{done} of {} rays", self.total);
            self.shown = true;
        }
    }
}

impl Drop for Progress {
    fn drop(&mut self) {
        if self.shown {
            eprintln!();
        }
    }
}
