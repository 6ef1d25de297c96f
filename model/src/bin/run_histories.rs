//! run_histories [HOW_MANY [FIRST_SEED [CALLS]]]: runs random histories with the self-check and
//! demand 3, and prints what they reached.

use model::survey::Survey;

fn main() {
    let arguments: Vec<u64> = std::env::args().skip(1).filter_map(|a| a.parse().ok()).collect();
    let figure = |at: usize, other| arguments.get(at).copied().unwrap_or(other);
    let (count, first, calls) = (figure(0, 1_000), figure(1, 1), figure(2, 1_000));
    println!("seeds {first} to {}", first + count - 1);
    let mut survey = Survey::default();
    for seed in first..first + count {
        if let Err(fault) = survey.add(seed, calls as usize) {
            println!("{fault}");
            std::process::exit(1);
        }
    }
    println!("{} histories, {} calls", survey.histories, survey.calls);
    print!("{}", survey.table());
    println!("dropped by the second lists of demand 3: {:?}", survey.dropped);
    let not_met = survey.not_met();
    if !not_met.is_empty() {
        println!("not met: {}", not_met.join("; "));
        std::process::exit(1);
    }
}
