//! Times reading and normalising in memory.

use crate::fast;
use std::time::Instant;

const RUNS: usize = 15;
/// Runs on small inputs are repeated until they take so many bytes.
const LEAST: usize = 4_000_000;

/// Best and median of several runs, in MB/s (a million bytes a second).
pub struct Speed {
    pub best: f64,
    pub median: f64,
}

pub struct Line {
    pub read: Speed,
    pub normal: Speed,
}

/// Times both; the input must be accepted, or the figures would mean nothing.
pub fn time(bytes: &[u8]) -> Result<Line, String> {
    fast::summarise(bytes).map_err(|refusal| refusal.to_string())?;
    let read = speed(bytes.len(), || {
        let summary = fast::summarise(std::hint::black_box(bytes));
        std::hint::black_box(summary).is_ok()
    });
    let mut out = Vec::with_capacity(bytes.len() + 1024);
    let normal = speed(bytes.len(), || {
        out.clear();
        let summary = fast::normal(std::hint::black_box(bytes), &mut out);
        std::hint::black_box((summary, &out)).0.is_ok()
    });
    Ok(Line { read, normal })
}

fn speed(bytes: usize, mut run: impl FnMut() -> bool) -> Speed {
    let repeats = LEAST.div_ceil(bytes.max(1));
    let mut speeds: Vec<f64> = (0..RUNS)
        .map(|_| {
            let start = Instant::now();
            for _ in 0..repeats {
                assert!(run());
            }
            (bytes * repeats) as f64 / start.elapsed().as_secs_f64() / 1e6
        })
        .collect();
    speeds.sort_by(f64::total_cmp);
    Speed { best: speeds[RUNS - 1], median: speeds[RUNS / 2] }
}

/// The table's first line.
pub fn heading() -> String {
    format!(
        "{:<16} {:>10} {:>10} {:>10} {:>12} {:>12}",
        "MB/s", "bytes", "read best", "median", "normal best", "median"
    )
}

/// One line of the table, in MB/s.
pub fn line(name: &str, bytes: usize, line: &Line) -> String {
    format!(
        "{name:<16} {bytes:>10} {:>10.0} {:>10.0} {:>12.0} {:>12.0}",
        line.read.best, line.read.median, line.normal.best, line.normal.median
    )
}
