//! Typed amounts, read and written.

use crate::timing::best;
use model::amount::{read, write_into, Cap};
use model::random::{amount_text, Random};
use pailorchard::{read_amount, write_amount, Amount};
use std::hint::black_box;
use std::time::Duration;

const TEXTS: usize = 2_000;

fn line(name: &str, bytes: usize, (library, model): (Duration, Duration)) {
    let speed = |time: Duration| bytes as f64 / 1e6 / time.as_secs_f64();
    let (library, model) = (speed(library), speed(model));
    println!("{name:<44} {bytes:>7} {library:>10.1} {model:>10.1} {:>8.2}", model / library);
}

fn reading(name: &str, texts: &[Vec<u8>], rounds: usize) {
    let bytes = texts.iter().map(|t| t.len()).sum();
    let library = || {
        for text in black_box(texts) {
            let _ = black_box(read_amount(text));
        }
    };
    let model = || {
        for text in black_box(texts) {
            let _ = black_box(read(text));
        }
    };
    line(name, bytes, best(rounds, library, model));
}

fn writing(name: &str, caps: &[Cap], rounds: usize) {
    let (mut one, mut other) = ([0; 16], [0; 16]);
    let bytes = caps.iter().filter_map(|cap| write_into(*cap, &mut one).ok()).sum();
    let library = || {
        for cap in black_box(caps) {
            let amount = match cap {
                Cap::Unlimited => Amount::Unlimited,
                Cap::Bytes(n) => Amount::Bytes(*n),
            };
            let _ = black_box(write_amount(amount, black_box(&mut one)));
        }
    };
    let model = || {
        for cap in black_box(caps) {
            let _ = black_box(write_into(*cap, black_box(&mut other)));
        }
    };
    line(name, bytes, best(rounds, library, model));
}

pub fn run(rounds: usize) {
    println!("\nAmounts, MB of text a second (ratio: of the times)");
    println!("{:<44} {:>7} {:>10} {:>10} {:>8}", "", "bytes", "library", "model", "ratio");
    let mut r = Random::new(1);
    let any: Vec<Vec<u8>> = (0..TEXTS).map(|_| amount_text(&mut r)).collect();
    let good = std::iter::repeat_with(|| amount_text(&mut r)).filter(|t| read(t).is_ok());
    let good: Vec<Vec<u8>> = good.take(TEXTS).collect();
    let caps: Vec<Cap> = good.iter().filter_map(|t| read(t).ok()).collect();
    reading("read, texts that are amounts", &good, rounds);
    reading("read, any texts of the comparison", &any, rounds);
    writing("write, the amounts read", &caps, rounds);
}
