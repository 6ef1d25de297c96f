//! Times, and the lines that show them.

use std::hint::black_box;
use std::time::{Duration, Instant};

pub fn once(work: &mut impl FnMut()) -> Duration {
    let start = Instant::now();
    work();
    start.elapsed()
}

/// The best time of each of two works that are done by turns.
pub fn best(
    rounds: usize,
    mut library: impl FnMut(),
    mut model: impl FnMut(),
) -> (Duration, Duration) {
    library();
    model();
    let mut times = (Duration::MAX, Duration::MAX);
    for _ in 0..rounds {
        times.0 = times.0.min(once(&mut library));
        times.1 = times.1.min(once(&mut model));
    }
    times
}

/// Two times with two others taken off.
pub fn less(times: (Duration, Duration), off: (Duration, Duration)) -> (Duration, Duration) {
    (times.0.saturating_sub(off.0), times.1.saturating_sub(off.1))
}

/// What a copy of 64 KB takes.
pub fn copy(rounds: usize) -> Duration {
    let (from, mut to) = (vec![1u8; 65_536], vec![0u8; 65_536]);
    let mut copies = || {
        for _ in 0..100 {
            black_box(&mut to).copy_from_slice(black_box(&from));
        }
    };
    copies();
    (0..rounds).map(|_| once(&mut copies)).min().unwrap_or_default() / 100
}

/// Microseconds for each of `count` pieces of work.
pub fn each(time: Duration, count: usize) -> f64 {
    time.as_secs_f64() * 1e6 / count.max(1) as f64
}

/// A line with the time of one piece of work by each, and the ratio.
pub fn line(name: &str, count: usize, (library, model): (Duration, Duration)) {
    let (library, model) = (each(library, count), each(model, count));
    println!("{name:<44} {count:>7} {library:>10.3} {model:>10.3} {:>8.2}", library / model);
}
