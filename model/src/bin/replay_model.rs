//! Reads a journal from standard input, or from the file named by the one argument,
//! and prints what the program should print for it.

use std::io::{Read, Write};

fn main() {
    let mut journal = Vec::new();
    let read = match std::env::args().nth(1) {
        Some(path) => std::fs::read(path).map(|bytes| journal = bytes),
        None => std::io::stdin().read_to_end(&mut journal).map(|_| ()),
    };
    if let Err(error) = read {
        eprintln!("cannot read the journal: {error}");
        std::process::exit(1);
    }
    let lines = model::journal::replay(&journal);
    std::io::stdout().write_all(lines.as_bytes()).unwrap();
}
