//! Writes examples/long-paths.journal to standard output.

use model::example::long_paths;
use model::journal::{write_journal, Version};
use std::io::Write;

fn main() {
    // Every text has at most 1,024 bytes, and every mode is known.
    let journal = write_journal(Version::Two, &long_paths()).unwrap();
    std::io::stdout().write_all(&journal).unwrap();
}
