//! Reads whole recordings with the proved library and with the second reader, turn by turn, and prints the speeds and
//! how many times as long the library takes: `scripts/bench [FILE..]`. The last column is the same beside the second
//! reader without its SSSE3 shuffles: both are then code for any x86-64 processor.

use second::{compare, fast, mix};
use std::hint::black_box;
use std::time::{Duration, Instant};

/// Turns for each input; the best of each reader counts, and the median of the turns' ratios.
const TURNS: usize = 21;
/// Small inputs are read again until so many bytes were read in a turn.
const LEAST: usize = 8_000_000;
const MADE: usize = 16_000_000;

extern "C" {
    fn speed_x(bytes: *const u8, length: usize, entity: u8) -> i16;
}

fn proved(bytes: &[u8]) {
    // SAFETY: the function reads the bytes of the slice and nothing else, and has no other demand.
    black_box(unsafe { speed_x(black_box(bytes).as_ptr(), bytes.len(), black_box(1)) });
}

fn second(bytes: &[u8]) {
    black_box(fast::summarise(black_box(bytes)).is_ok());
}

fn without_shuffles(bytes: &[u8]) {
    black_box(fast::summarise_without_shuffles(black_box(bytes)).is_ok());
}

fn timed(bytes: &[u8], repeats: usize, read: fn(&[u8])) -> Duration {
    let start = Instant::now();
    (0..repeats).for_each(|_| read(bytes));
    start.elapsed()
}

fn measure(name: &str, bytes: &[u8]) {
    let summary = fast::summarise(bytes).expect("the input is accepted, or its figures would mean nothing");
    let repeats = LEAST.div_ceil(bytes.len().max(1));
    let readers: [fn(&[u8]); 3] = [proved, second, without_shuffles];
    let turns: Vec<[f64; 3]> =
        (0..TURNS).map(|_| readers.map(|read| timed(bytes, repeats, read).as_secs_f64())).collect();
    let best = |reader: usize| turns.iter().map(|t| t[reader]).fold(f64::INFINITY, f64::min);
    let times = |reader: usize| {
        let mut ratios: Vec<f64> = turns.iter().map(|t| t[0] / t[reader]).collect();
        ratios.sort_by(f64::total_cmp);
        ratios[TURNS / 2]
    };
    let megabytes = (bytes.len() * repeats) as f64 / 1e6;
    let millions = (summary.messages * repeats) as f64 / 1e6;
    let (ours, theirs) = (best(0), best(1));
    println!(
        "{name:<14} {:>10} {:>9.0} {:>9.0} {:>9.0} {:>9.0} {:>7.2} {:>11.2}",
        bytes.len(),
        megabytes / ours,
        megabytes / theirs,
        millions / ours,
        millions / theirs,
        times(1),
        times(2)
    );
}

fn main() -> std::io::Result<()> {
    println!(
        "{:<14} {:>10} {:>9} {:>9} {:>9} {:>9} {:>7} {:>11}",
        "", "bytes", "MB/s", "second", "M msg/s", "second", "times", "unshuffled"
    );
    let files: Vec<std::path::PathBuf> = std::env::args().skip(1).map(Into::into).collect();
    if files.is_empty() {
        for name in mix::NAMES {
            measure(name, &mix::make(name, MADE).expect("the name is one of the list"));
        }
    }
    let folder = compare::recordings_folder();
    for path in if files.is_empty() { compare::recordings_in(&folder) } else { files } {
        measure(&path.file_name().unwrap_or_default().to_string_lossy(), &std::fs::read(&path)?);
    }
    Ok(())
}
