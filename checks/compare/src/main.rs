//! compare [CALLS [DAMAGED [TEXTS [SEED [THREADS]]]]]: compares the library with the model.
//!
//! Whole journals of both versions until CALLS calls are run: the transcript and the desk as bytes, after the whole journal
//! and at places in it. DAMAGED damaged journals: transcript and desk. TEXTS texts: as an amount, a path, a prefix and a name.
//! Prints what was compared and what the journals reached. Ends with 1 at a difference, and where something of the
//! survey's list was never met.

mod journals;
mod texts;

use std::process::ExitCode;
use std::sync::atomic::{AtomicBool, AtomicU64, Ordering::Relaxed};
use std::time::Instant;

/// What is to be compared.
pub struct Wanted {
    calls: u64,
    damaged: u64,
    texts: u64,
    seed: u64,
    threads: u64,
}

/// The next seed, and whether a difference was found.
#[derive(Default)]
pub struct Shared {
    next: AtomicU64,
    calls: AtomicU64,
    stopped: AtomicBool,
}

impl Shared {
    /// The number of the next piece of work, while there is no difference.
    fn take(&self) -> Option<u64> {
        (!self.stopped.load(Relaxed)).then(|| self.next.fetch_add(1, Relaxed))
    }
}

/// Runs `work` in each thread and puts what they counted together.
fn in_threads<T: Send>(
    threads: u64,
    shared: &Shared,
    work: impl Fn() -> Result<T, String> + Sync,
) -> Result<Vec<T>, String> {
    let guarded = || {
        let result = work();
        if result.is_err() {
            shared.stopped.store(true, Relaxed);
        }
        result
    };
    std::thread::scope(|scope| {
        let running: Vec<_> = (0..threads).map(|_| scope.spawn(guarded)).collect();
        let ended: Vec<_> = running.into_iter().map(|thread| thread.join()).collect();
        let told = |_| Err("a thread panicked".to_string());
        ended.into_iter().map(|result| result.unwrap_or_else(told)).collect()
    })
}

fn compare(wanted: &Wanted) -> Result<(), String> {
    let start = Instant::now();
    let survey = journals::compare(wanted)?;
    texts::compare(wanted)?;
    println!("no difference, {} s", start.elapsed().as_secs());
    println!("\nwhat the whole journals reached, by kind of call with each answer, then by event:");
    print!("{}", survey.table());
    let not_met = survey.not_met();
    if !not_met.is_empty() {
        return Err(format!("never met: {}", not_met.join("; ")));
    }
    println!("all of it was met");
    Ok(())
}

fn main() -> ExitCode {
    let arguments: Vec<_> = std::env::args().skip(1).map(|a| a.parse::<u64>()).collect();
    let figure = |at: usize, other| match arguments.get(at) {
        Some(Ok(figure)) => Some(*figure),
        Some(Err(_)) => None,
        None => Some(other),
    };
    let wanted = || {
        Some(Wanted {
            calls: figure(0, 200_000)?,
            damaged: figure(1, 20_000)?,
            texts: figure(2, 200_000)?,
            seed: figure(3, 1)?,
            threads: figure(4, 2)?,
        })
    };
    let Some(wanted) = wanted() else {
        eprintln!("compare [CALLS [DAMAGED [TEXTS [SEED [THREADS]]]]]");
        return ExitCode::from(2);
    };
    match compare(&wanted) {
        Ok(()) => ExitCode::SUCCESS,
        Err(fault) => {
            println!("{fault}");
            ExitCode::FAILURE
        }
    }
}
