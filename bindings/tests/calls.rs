//! Each function on good and bad input, on buffers too short by one, and on empty ones.

use pailorchard::*;

/// An advance to block 3,600, the whole case of document 01.
const JOURNAL: [u8; 12] = [0x01, 0x00, 0x09, 0x01, 0, 0, 0, 0, 0, 0, 0x0E, 0x10];
const TRANSCRIPT: &[u8] = b"desk 1\n1 0 3600\nend 1\n";
/// What the buffers hold before a call.
const OLD: u8 = 0xA5;
const DESK: usize = 81_046;

fn day() -> Vec<u8> {
    std::fs::read(concat!(env!("CARGO_MANIFEST_DIR"), "/../examples/day.journal")).unwrap()
}

fn long_paths() -> Vec<u8> {
    std::fs::read(concat!(env!("CARGO_MANIFEST_DIR"), "/../examples/long-paths.journal")).unwrap()
}

fn long_paths_transcript() -> Vec<u8> {
    let name = concat!(env!("CARGO_MANIFEST_DIR"), "/../examples/long-paths.transcript");
    std::fs::read(name).unwrap()
}

fn day_transcript() -> Vec<u8> {
    std::fs::read(concat!(env!("CARGO_MANIFEST_DIR"), "/../crates/replay/stdout")).unwrap()
}

#[test]
fn rooms() {
    assert_eq!(replay_room(0), 21);
    assert_eq!(replay_room(1), 31);
    assert_eq!(replay_room(12), 141);
    assert_eq!(replay_room(65_536), 655_381);
    assert_eq!(replay_room(65_537), 655_381);
    assert_eq!(replay_room(usize::MAX), 655_381);
    assert_eq!(desk_room(), DESK);
}

#[test]
fn replays() {
    assert_eq!(replay(&JOURNAL).unwrap(), TRANSCRIPT);
    assert_eq!(replay(&day()).unwrap(), day_transcript());
    assert_eq!(replay(&long_paths()).unwrap(), long_paths_transcript());
    assert_eq!(replay(&[0x01]).unwrap(), b"desk 1\nend 0\n");
    assert_eq!(replay(&[0x02]).unwrap(), b"desk 1\nend 0\n");
    // No version, other ones, a cut record, and one byte too many.
    assert_eq!(replay(&[]).unwrap(), b"desk 1\nstop 0 28\n");
    for other in [0x00, 0x03, 0xFF] {
        assert_eq!(replay(&[other]).unwrap(), b"desk 1\nstop 0 28\n");
    }
    assert_eq!(replay(&JOURNAL[..11]).unwrap(), b"desk 1\nstop 0 27\n");
    assert_eq!(replay(&[0x01; 65_537]).unwrap(), b"desk 1\nstop 0 24\n");
}

/// A look at a path of so many bytes, in version 01 or 02.
fn look(version: u8, length: usize) -> Vec<u8> {
    let width = usize::from(version);
    let body = 1 + 4 + width + length;
    let mut journal = vec![version];
    journal.extend((body as u16).to_be_bytes());
    journal.extend([0x0E, 0, 0, 0, 1]);
    journal.extend(&length.to_be_bytes()[size_of::<usize>() - width..]);
    journal.resize(3 + body, b'p');
    journal
}

/// There is no token, so a path is answered 4, and a text that is no path 1. A text above 1,024 bytes is no record.
#[test]
fn paths_in_journals() {
    for (version, length) in [(1, 128), (1, 129), (1, 255), (2, 1), (2, 255), (2, 256), (2, 512)] {
        assert_eq!(replay(&look(version, length)).unwrap(), b"desk 1\n1 4 0\nend 1\n");
    }
    for (version, length) in [(1, 0), (2, 0), (2, 513), (2, 1_024)] {
        assert_eq!(replay(&look(version, length)).unwrap(), b"desk 1\n1 1 0\nend 1\n");
    }
    for length in [1_025, 1_026, 60_000] {
        assert_eq!(replay(&look(2, length)).unwrap(), b"desk 1\nstop 0 27\n");
    }
}

#[test]
fn replay_leaves_what_is_after_the_transcript() {
    let mut out = vec![OLD; replay_room(JOURNAL.len()) + 5];
    assert_eq!(replay_into(&JOURNAL, &mut out), Ok(TRANSCRIPT.len()));
    assert_eq!(&out[..TRANSCRIPT.len()], TRANSCRIPT);
    assert!(out[TRANSCRIPT.len()..].iter().all(|b| *b == OLD));
}

#[test]
fn replay_into_short_buffers() {
    for journal in [&[][..], &JOURNAL[..], &[0x01; 65_537][..]] {
        let room = replay_room(journal.len());
        let mut out = vec![OLD; room];
        let mut written = 77;
        for short in [0, 1, room / 2, room - 1] {
            assert_eq!(replay_into(journal, &mut out[..short]), Err(Refusal(12)));
            // SAFETY: the pointers are those of living slices, the lengths are not above theirs.
            let number = unsafe {
                let (from, to) = (journal.as_ptr(), out.as_mut_ptr());
                raw::pailorchard_replay(from, journal.len(), to, short, &mut written)
            };
            assert_eq!((number, written), (12, 77));
            assert!(out.iter().all(|b| *b == OLD));
        }
        assert!(replay_into(journal, &mut out).is_ok());
    }
    assert_eq!(replay_into(&[], &mut []), Err(Refusal(12)));
}

#[test]
fn desks() {
    let fresh = desk_after(&[]).unwrap();
    assert_eq!(fresh.transcript, b"desk 1\nstop 0 28\n");
    // Clock 0, rate 100, and a first volume row that is free.
    assert_eq!(fresh.desk.len(), DESK);
    assert_eq!(&fresh.desk[..14], [0, 0, 0, 0, 0, 0, 0, 0, 0, 100, 0, 0, 0, 0]);
    let after = desk_after(&JOURNAL).unwrap();
    assert_eq!(after.transcript, TRANSCRIPT);
    assert_eq!(&after.desk[..8], 3_600u64.to_be_bytes());
    assert_eq!(&after.desk[8..], &fresh.desk[8..]);
    let day = desk_after(&day()).unwrap();
    assert_eq!(day.transcript, day_transcript());
    // The first volume is number 1.
    assert_eq!(&day.desk[10..14], [0, 0, 0, 1]);
    // The first entry row is free again, and the second has a path of 512 bytes: its length comes after it.
    let after = desk_after(&long_paths()).unwrap();
    assert_eq!(after.transcript, long_paths_transcript());
    let entries = &after.desk[10 + 8 * 141..][..64 * 668];
    assert!(entries[..668].iter().all(|b| *b == 0));
    assert_eq!(entries[668..][..4], [0, 0, 0, 1]);
    assert!(is_path(&entries[668 + 4..][..512]));
    assert_eq!(entries[668 + 516..][..8], 512u64.to_be_bytes());
}

#[test]
fn desk_leaves_what_is_after_it() {
    let mut transcript = vec![OLD; replay_room(JOURNAL.len()) + 3];
    let mut desk = vec![OLD; DESK + 3];
    assert_eq!(desk_after_into(&JOURNAL, &mut transcript, &mut desk), Ok(TRANSCRIPT.len()));
    assert!(transcript[TRANSCRIPT.len()..].iter().all(|b| *b == OLD));
    assert_eq!(desk[DESK..], [OLD; 3]);
    assert_eq!(&desk[..DESK], desk_after(&JOURNAL).unwrap().desk);
}

#[test]
fn desk_into_short_buffers() {
    let room = replay_room(JOURNAL.len());
    let mut transcript = vec![OLD; room];
    let mut desk = vec![OLD; DESK];
    let shorts = [(room - 1, DESK), (room, DESK - 1), (0, DESK), (room, 0), (0, 0)];
    for (one, two) in shorts {
        let refused = desk_after_into(&JOURNAL, &mut transcript[..one], &mut desk[..two]);
        assert_eq!(refused, Err(Refusal(12)));
        let mut written = 77;
        // SAFETY: the pointers are those of living slices, the lengths are not above theirs.
        let number = unsafe {
            let (from, to, rows) = (JOURNAL.as_ptr(), transcript.as_mut_ptr(), desk.as_mut_ptr());
            raw::pailorchard_desk_after(from, JOURNAL.len(), to, one, rows, two, &mut written)
        };
        assert_eq!((number, written), (12, 77));
        assert!(transcript.iter().chain(&desk).all(|b| *b == OLD));
    }
    assert!(desk_after_into(&JOURNAL, &mut transcript, &mut desk).is_ok());
}

#[test]
fn reads_amounts() {
    assert_eq!(read_amount(b"0,5 GiB"), Ok(Amount::Bytes(536_870_912)));
    assert_eq!(read_amount(b"0.5 GiB"), Ok(Amount::Bytes(536_870_912)));
    assert_eq!(read_amount(b"0 B"), Ok(Amount::Bytes(0)));
    assert_eq!(read_amount(b"64 GiB"), Ok(Amount::Bytes(1 << 36)));
    assert_eq!(read_amount(b"unlimited"), Ok(Amount::Unlimited));
    for (text, number) in [
        (&b""[..], 22),
        (b"0,5", 22),
        (b"007 B", 22),
        (b"unlimited ", 22),
        (&[0xFF; 300], 22),
        (b"0,1 KiB", 23),
        (b"99999999999,5 B", 23),
        (b"64,5 GiB", 24),
    ] {
        assert_eq!(read_amount(text), Err(Refusal(number)));
        let (mut limited, mut bytes) = (true, 77);
        // SAFETY: the pointers are those of a living slice and of two variables.
        let answer = unsafe {
            raw::pailorchard_read_amount(text.as_ptr(), text.len(), &mut limited, &mut bytes)
        };
        assert_eq!((answer, limited, bytes), (number, true, 77));
    }
}

#[test]
fn writes_amounts() {
    let cases: [(Amount, &[u8]); 6] = [
        (Amount::Unlimited, b"unlimited"),
        (Amount::Bytes(0), b"0 B"),
        (Amount::Bytes(1_023), b"1023 B"),
        (Amount::Bytes(1_536 << 10), b"1536 KiB"),
        (Amount::Bytes(1 << 36), b"64 GiB"),
        (Amount::Bytes((1 << 36) - 1), b"68719476735 B"),
    ];
    for (amount, text) in cases {
        let mut out = [OLD; 20];
        assert_eq!(write_amount(amount, &mut out), Ok(text.len()));
        assert_eq!(&out[..text.len()], text);
        assert!(out[text.len()..].iter().all(|b| *b == OLD));
        let mut out = [OLD; 20];
        assert_eq!(write_amount(amount, &mut out[..text.len() - 1]), Err(Refusal(12)));
        assert_eq!(out, [OLD; 20]);
        assert_eq!(write_amount(amount, &mut out[..text.len()]), Ok(text.len()));
        assert_eq!(write_amount(amount, &mut []), Err(Refusal(12)));
        assert_eq!(read_amount(text), Ok(amount));
    }
}

#[test]
fn amounts_not_written() {
    let mut out = [OLD; 40];
    // 24 before 12.
    for above in [(1 << 36) + 1, u64::MAX] {
        for room in [0, 1, 40] {
            let mut written = 77;
            // SAFETY: the pointer is that of a living slice, the length is not above its own.
            let number = unsafe {
                raw::pailorchard_write_amount(true, above, out.as_mut_ptr(), room, &mut written)
            };
            assert_eq!((number, written, out), (24, 77, [OLD; 40]));
        }
    }
    let mut written = 77;
    // SAFETY: as above.
    let number =
        unsafe { raw::pailorchard_write_amount(true, 5, out.as_mut_ptr(), 2, &mut written) };
    assert_eq!((number, written, out), (12, 77, [OLD; 40]));
    // Where there is no limit the count is not looked at.
    // SAFETY: as above.
    let number = unsafe {
        raw::pailorchard_write_amount(false, u64::MAX, out.as_mut_ptr(), 9, &mut written)
    };
    assert_eq!((number, written, &out[..9]), (0, 9, &b"unlimited"[..]));
}

#[test]
fn texts() {
    let long = [b'p'; 1_100];
    let [old, more, longest] = [128, 129, 512].map(|length| &long[..length]);
    for path in [&b"a"[..], b"job/a", b"...", b"~/!", old, more, &long[..511], longest] {
        assert!(is_path(path) && !is_prefix(path));
    }
    for text in
        [&b""[..], b"/", b"/a", b"a/", b"a//b", b".", b"a/..", b"a b", &[0x7F], &long[..513], &long]
    {
        assert!(!is_path(text));
    }
    for length in [127, 128, 129, 511] {
        assert!(is_prefix(&[&long[..length], b"/"].concat()));
    }
    for prefix in [&b""[..], b"job/", b"a/b/"] {
        assert!(is_prefix(prefix));
    }
    let too_long = [&long[..512], b"/"].concat();
    for text in [&b"/"[..], b"job", b"//", b"../", b"a//", &too_long, &long] {
        assert!(!is_prefix(text));
    }
    for name in [&b"v"[..], b".", b"A_b-9.z", &long[..64]] {
        assert!(is_name(name));
    }
    for text in [&b""[..], b"a b", b"a/b", &[0xC3, 0xA9], &long[..65], &long] {
        assert!(!is_name(text));
    }
}

#[test]
fn tests_of_the_desk() {
    let day = day();
    let room = replay_room(day.len());
    let mut transcript = vec![OLD; room];
    assert_eq!(test_desk(&day, &mut transcript[..room - 1], 9), 0);
    assert_eq!(test_desk(&day, &mut [], 9), 0);
    assert!(transcript.iter().all(|b| *b == OLD));
    assert_eq!(test_desk(&day, &mut transcript, 0), 0);
    assert_eq!(test_desk(&day, &mut transcript, 9), 9);
    assert!(transcript.starts_with(&day_transcript()));
    assert_eq!(test_desk(&[], &mut transcript, 5), 5);
}

/// Two megabytes of stack are enough for the functions that replay a journal.
#[test]
fn stack() {
    let run = || {
        let mut transcript = vec![0; replay_room(65_536)];
        for journal in [day(), long_paths()] {
            assert!(replay(&journal).is_ok() && desk_after(&journal).is_ok());
            assert_eq!(test_desk(&journal, &mut transcript, 2), 2);
        }
    };
    let thread = std::thread::Builder::new().stack_size(2 << 20).spawn(run);
    thread.unwrap().join().unwrap();
}

#[test]
fn refusals_have_sentences() {
    for number in [12, 22, 23, 24] {
        let shown = Refusal(number).to_string();
        assert!(shown.contains(&format!("({number})")) && !shown.contains("not one of"));
    }
    assert!(Refusal(3).sentence().contains("not one of"));
}
