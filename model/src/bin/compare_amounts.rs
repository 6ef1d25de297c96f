//! compare_amounts PROGRAM [TEXTS [SEED]]: compares a program that reads one amount a line
//! and prints `[text] answer value` with the model, on random texts.

use model::amount::{read, Cap};
use model::random::{amount_text, Random};
use model::refusal::{NOT_WHOLE, TEXT, TOO_LARGE};
use std::io::Write;
use std::process::{Command, Stdio};

/// The program reads this many bytes of input and no more, so it is run once for each batch.
const INPUT: usize = 4_096;

/// The line the program should print for a text.
fn line(text: &[u8]) -> String {
    let seen = |b: &u8| if (32..=126).contains(b) { char::from(*b) } else { '?' };
    let shown: String = text.iter().map(seen).collect();
    match read(text) {
        Ok(Cap::Unlimited) => format!("[{shown}] 0 unlimited"),
        Ok(Cap::Bytes(n)) => format!("[{shown}] 0 {n}"),
        Err(number) => format!("[{shown}] {number} 0"),
    }
}

/// What the program prints for the texts.
fn printed(program: &str, texts: &[Vec<u8>]) -> std::io::Result<String> {
    let mut child = Command::new(program).stdin(Stdio::piped()).stdout(Stdio::piped()).spawn()?;
    let mut input = child.stdin.take().unwrap();
    let lines: Vec<u8> = texts.iter().flat_map(|t| t.iter().chain(b"\n")).copied().collect();
    let writer = std::thread::spawn(move || input.write_all(&lines));
    let output = child.wait_with_output()?;
    writer.join().unwrap()?;
    Ok(String::from_utf8_lossy(&output.stdout).into_owned())
}

/// Compares one batch.
fn compare(program: &str, texts: &[Vec<u8>]) -> Result<(), String> {
    let output = printed(program, texts).map_err(|e| format!("{program}: {e}"))?;
    let mut lines = output.lines();
    for (place, text) in texts.iter().enumerate() {
        let wanted = line(text);
        let found = lines.next().ok_or(format!("no line for text {place}"))?;
        if found != wanted {
            return Err(format!("text {place} {text:?}\n model:   {wanted}\n program: {found}"));
        }
    }
    Ok(())
}

/// Texts from the front of `texts` whose lines have at most INPUT bytes together.
fn batch(texts: &[Vec<u8>]) -> usize {
    let mut bytes = 0;
    let fits = |t: &&Vec<u8>| {
        bytes += t.len() + 1;
        bytes <= INPUT
    };
    texts.iter().take_while(fits).count()
}

fn main() {
    let arguments: Vec<String> = std::env::args().skip(1).collect();
    let figure = |at: usize, other| arguments.get(at).and_then(|a| a.parse().ok()).unwrap_or(other);
    let Some(program) = arguments.first() else {
        eprintln!("compare_amounts PROGRAM [TEXTS [SEED]]");
        std::process::exit(2);
    };
    let (total, seed) = (figure(1, 1_000_000), figure(2, 1));
    println!("seed {seed}");
    let mut r = Random::new(seed);
    let texts: Vec<Vec<u8>> = (0..total).map(|_| amount_text(&mut r)).collect();
    let (mut compared, mut runs) = (0, 0);
    while compared < texts.len() {
        let rest = &texts[compared..];
        let count = batch(rest);
        if let Err(difference) = compare(program, &rest[..count]) {
            println!("difference, seed {seed}, after {compared} texts: {difference}");
            std::process::exit(1);
        }
        compared += count;
        runs += 1;
    }
    let answered = |number| texts.iter().filter(|t| read(t).err() == number).count();
    println!("compared {compared} in {runs} runs, accepted {}, no difference", answered(None));
    for number in [TEXT, NOT_WHOLE, TOO_LARGE] {
        println!("refused with {number}: {}", answered(Some(number)));
    }
}
