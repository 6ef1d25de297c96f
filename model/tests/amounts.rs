//! Typed amounts: the hand-checked cases, the readings, and random texts.

use model::amount::{read, write, write_into, Cap};
use model::random::{amount_text, Random};

const MOST: u64 = 1 << 36;

#[track_caller]
fn reads(text: &str, count: u64) {
    assert_eq!(read(text.as_bytes()), Ok(Cap::Bytes(count)), "{text}");
}

#[track_caller]
fn refuses(text: &str, number: u32) {
    assert_eq!(read(text.as_bytes()), Err(number), "{text}");
}

#[test]
fn hand_checked() {
    reads("0,5 GiB", 536_870_912);
    reads("0.5 GiB", 536_870_912);
    refuses("0,5", 22);
    refuses("0,1 KiB", 23);
    reads("1,000 KiB", 1_024);
    refuses("64,5 GiB", 24);
    reads("64 GiB", MOST);
    refuses("007 B", 22);
}

#[test]
fn reading() {
    assert_eq!(read(b"unlimited"), Ok(Cap::Unlimited));
    reads("0 B", 0);
    reads("0,000000000 GiB", 0);
    reads("1,0 B", 1);
    reads("68719476736 B", MOST);
    reads("63,998046875 GiB", MOST - (1 << 21));
    refuses("68719476737 B", 24);
    refuses("99999999999 GiB", 24);
    // 23 before 24.
    refuses("99999999999,5 B", 23);
    refuses("99999999999,999999999 GiB", 23);
    refuses("0,000000001 GiB", 23);
}

#[test]
fn not_an_amount() {
    let texts = [
        "",
        " ",
        "B",
        " B",
        "5",
        "5B",
        "5  B",
        " 5 B",
        "5 B ",
        "5 b",
        "5 kiB",
        "5 KIB",
        "5 KB",
        "5 TiB",
        "00 B",
        "01 B",
        "0",
        ",5 B",
        "5, B",
        "5,. B",
        "5,5,5 B",
        "5.5.5 B",
        "+5 B",
        "-5 B",
        "1 000 KiB",
        "1'000 KiB",
        "100000000000 B",
        "1,0000000000 B",
        "Unlimited",
        "UNLIMITED",
        "unlimited ",
        " unlimited",
        "unlimite",
        "unlimited B",
        "0x1 B",
        "1e3 B",
        "5\tB",
        "5 B\n",
        "5 B\0",
        "5\u{a0}B",
        "\u{661} B",
    ];
    texts.iter().for_each(|text| refuses(text, 22));
    assert_eq!(read(&[b'5', 0xFF, b'B']), Err(22));
    assert_eq!(read(&[0xFF]), Err(22));
}

#[track_caller]
fn writes(cap: Cap, text: &str) {
    assert_eq!(write(cap, 20), Ok(text.as_bytes().to_vec()));
    assert_eq!(write(cap, text.len()), Ok(text.as_bytes().to_vec()));
    assert_eq!(write(cap, text.len() - 1), Err(12));
    assert_eq!(read(text.as_bytes()), Ok(cap));
}

#[test]
fn writing() {
    writes(Cap::Unlimited, "unlimited");
    writes(Cap::Bytes(0), "0 B");
    writes(Cap::Bytes(1), "1 B");
    writes(Cap::Bytes(1_023), "1023 B");
    writes(Cap::Bytes(1_024), "1 KiB");
    writes(Cap::Bytes(1_536), "1536 B");
    writes(Cap::Bytes(1 << 20), "1 MiB");
    writes(Cap::Bytes(1_536 << 10), "1536 KiB");
    writes(Cap::Bytes(1 << 29), "512 MiB");
    writes(Cap::Bytes(MOST), "64 GiB");
    writes(Cap::Bytes(MOST - 1), "68719476735 B");
    // 24 before 12.
    assert_eq!(write(Cap::Bytes(MOST + 1), 0), Err(24));
    assert_eq!(write(Cap::Bytes(u64::MAX), 40), Err(24));
}

#[test]
fn buffer() {
    let mut buffer = *b"..........";
    assert_eq!(write_into(Cap::Bytes(1_024), &mut buffer), Ok(5));
    assert_eq!(&buffer, b"1 KiB.....");
    assert_eq!(write_into(Cap::Bytes(1_023), &mut buffer[..5]), Err(12));
    assert_eq!(write_into(Cap::Bytes(MOST + 1), &mut buffer), Err(24));
    assert_eq!(&buffer, b"1 KiB.....");
    assert_eq!(write_into(Cap::Unlimited, &mut []), Err(12));
}

/// What is accepted is written and read again as the same.
#[test]
fn random_texts() {
    let seed = 7;
    let mut r = Random::new(seed);
    let mut accepted = 0;
    for _ in 0..200_000 {
        let text = amount_text(&mut r);
        assert!(text.len() <= 60 && !text.contains(&b'\n'));
        if let Ok(cap) = read(&text) {
            let again = write(cap, 60).unwrap();
            assert_eq!(read(&again), Ok(cap), "seed {seed}, text {text:?}");
            accepted += 1;
        }
    }
    assert!(accepted > 40_000, "accepted {accepted}");
}

/// A second way: whole bytes counted in units of 10^-9, with the text cut by hand.
#[test]
fn random_counts() {
    let mut r = Random::new(11);
    for _ in 0..100_000 {
        let (whole, nano) = (r.below(70), r.below(1_000_000_000));
        let text = format!("{whole}.{nano:09} GiB");
        let bytes = (u128::from(whole) * 1_000_000_000 + u128::from(nano)) << 30;
        let expected = match (bytes % 1_000_000_000 == 0, bytes / 1_000_000_000) {
            (false, _) => Err(23),
            (true, n) if n > u128::from(MOST) => Err(24),
            (true, n) => Ok(Cap::Bytes(n as u64)),
        };
        assert_eq!(read(text.as_bytes()), expected, "{text}");
    }
}
