//! bench [ROUNDS]: the library beside the model, in one run.
//!
//! Each figure is the best of ROUNDS rounds after one that is not counted; in each round the library and the model do
//! the same work, one after the other. No figure is compared with a limit.
//!
//! bench names: the journals of the first three tables. bench once NUMBER library|model TIMES: replays one of them, for
//! bench/instructions. bench journals: their names, lengths and checksums.

mod amounts;
mod desks;
mod journals;
mod timing;

use model::random::checksum;

fn all(rounds: usize) {
    println!("best of {rounds} rounds");
    println!("a copy of 65,536 bytes takes {:.2} µs", timing::copy(rounds).as_secs_f64() * 1e6);
    journals::run(rounds);
    amounts::run(rounds);
    desks::run(rounds);
}

fn known() -> Vec<journals::Named> {
    let mut known = journals::kinds();
    known.extend(journals::mixed());
    known.extend(journals::longest_paths());
    known
}

fn journals() {
    for named in known() {
        let sum = checksum(&named.journal);
        println!("{:<44} {:>7} {sum:016x}", named.name, named.journal.len());
    }
}

fn once(number: &str, by: &str, times: &str) -> Option<()> {
    let number: usize = number.parse().ok()?;
    let times = times.parse().ok()?;
    let by_library = match by {
        "library" => true,
        "model" => false,
        _ => return None,
    };
    journals::once(&known().get(number)?.journal, by_library, times);
    Some(())
}

/// None where the words are not known.
fn run(words: &[&str]) -> Option<()> {
    match words {
        [] => all(20),
        ["names"] => known().iter().for_each(|n| println!("{}", n.name)),
        ["journals"] => journals(),
        ["once", number, by, times] => once(number, by, times)?,
        [rounds] => all(rounds.parse().ok().filter(|rounds| *rounds > 0)?),
        _ => return None,
    }
    Some(())
}

fn main() {
    let words: Vec<String> = std::env::args().skip(1).collect();
    let words: Vec<&str> = words.iter().map(String::as_str).collect();
    if run(&words).is_none() {
        eprintln!(
            "bench [ROUNDS] | bench names | bench journals | bench once NUMBER library|model TIMES"
        );
        std::process::exit(2);
    }
}
