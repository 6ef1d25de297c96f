//! The test of the desk that is answered 1 before all else, beside a plain one written for speed.

use crate::journals::is_read;
use crate::timing::{each, once};
use model::array_desk::{is_path_by_bytes, is_path_by_walks, ArrayDesk, Tester};
use model::desk::{Desk, RATE};
use model::journal::{write_journal, MOST};
use model::settings::{calls, Setting, EMPTY, FULL, FULL_LONGEST, HALF};
use std::hint::black_box;
use std::time::Duration;

/// How often the desk is tested in a round.
const TIMES: u64 = 200;

/// A desk as a journal for the library, and in arrays for the plain test.
struct Made {
    journal: Vec<u8>,
    array: ArrayDesk,
}

fn made(setting: Setting) -> Made {
    let calls = calls(setting);
    let mut desk = Desk::fresh(RATE);
    let accepted = calls.iter().filter(|call| desk.run(call).is_ok()).count();
    assert_eq!(accepted, calls.len(), "the setting has a call that is refused");
    // The version holds every path of the setting, and every mode is known.
    let journal = write_journal(setting.version(), &calls).unwrap();
    assert!(journal.len() <= MOST, "the setting needs a journal that is too long");
    Made { journal, array: ArrayDesk::from(&desk) }
}

/// The best times of TIMES tests by the library, and by the plain test in its two ways.
fn best(desk: &Made, rounds: usize) -> [Duration; 3] {
    let mut out = vec![0; pailorchard::replay_room(desk.journal.len())];
    // The library replays the journal before it tests; the replay alone is taken off.
    let mut library = |times: u64| {
        let passed = black_box(pailorchard::test_desk(black_box(&desk.journal), &mut out, times));
        assert_eq!(passed, times, "the library's desk does not pass its test");
    };
    let plain = |tester: &mut Tester| {
        for _ in 0..TIMES {
            let passed = black_box(tester.test(black_box(&desk.array)));
            assert!(passed, "the desk does not pass the plain test");
        }
    };
    let mut testers = [Tester::new(is_path_by_bytes), Tester::new(is_path_by_walks)];
    let mut best = [Duration::MAX; 4];
    for round in 0..=rounds {
        let times = [
            once(&mut || library(TIMES)),
            once(&mut || library(0)),
            once(&mut || plain(&mut testers[0])),
            once(&mut || plain(&mut testers[1])),
        ];
        if round > 0 {
            best.iter_mut().zip(times).for_each(|(best, time)| *best = time.min(*best));
        }
    }
    [best[0].saturating_sub(best[1]), best[2], best[3]]
}

fn show(name: &str, setting: Setting, rounds: usize) {
    let made = made(setting);
    if !is_read(&made.journal) {
        println!("{name:<44} this library does not read its journal");
        return;
    }
    let [library, bytes, walks] = best(&made, rounds).map(|t| each(t, TIMES as usize));
    let ratios = (library / bytes, library / walks);
    println!(
        "{name:<44} {library:>10.3} {bytes:>10.3} {:>8.2} {walks:>10.3} {:>8.2}",
        ratios.0, ratios.1
    );
}

pub fn run(rounds: usize) {
    println!("\nThe test of the desk, µs for each, beside plain Rust with paths tested byte by byte, and many bytes at once");
    let heads = ["library µs", "plain µs", "ratio", "many µs", "ratio"];
    println!(
        "{:<44} {:>10} {:>10} {:>8} {:>10} {:>8}",
        "", heads[0], heads[1], heads[2], heads[3], heads[4]
    );
    show("empty", EMPTY, rounds);
    show("half full", HALF, rounds);
    show("full", FULL, rounds);
    for entries in [0, 8, 16, 32, 48, 64] {
        show(&format!("full, with {entries} entries"), Setting { entries, ..FULL }, rounds);
    }
    show("full, paths of 512, 5 puts a slot", FULL_LONGEST, rounds);
    let entries = FULL_LONGEST.entries / 2;
    let half = Setting { entries, ..FULL_LONGEST };
    show(&format!("full, paths of 512, with {entries} entries"), half, rounds);
}
