//! make_journal SEED [CALLS]: writes a random journal to standard output,
//! whole or damaged in one place. The seed is said on standard error.

use std::io::Write;

fn main() {
    let mut arguments = std::env::args().skip(1).map(|a| a.parse::<u64>());
    let Some(Ok(seed)) = arguments.next() else {
        eprintln!("make_journal SEED [CALLS]");
        std::process::exit(2);
    };
    let calls = match arguments.next() {
        Some(Ok(calls)) => calls as usize,
        _ => 1_000,
    };
    let journal = model::random::any_journal(seed, calls);
    let version = match model::journal::version(&journal) {
        Ok(version) => format!("version {:02X}", version.byte()),
        Err(_) => "no known version".to_string(),
    };
    eprintln!("seed {seed}, {} bytes, {version}", journal.len());
    std::io::stdout().write_all(&journal).unwrap();
}
