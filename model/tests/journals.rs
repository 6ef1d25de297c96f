//! The journal: whole and damaged ones, and what the program prints.

mod common;
use common::*;
use model::amount::Cap;
use model::call::Call;
use model::example::long_paths;
use model::journal::*;
use model::random::{any_journal, checksum, damaged_journal, history, journal_of, whole_journal};
use model::random::{Random, Texts};
use model::refusal::{BAD, RECORD};

const WHOLE: [u8; 12] = [0x01, 0x00, 0x09, 0x01, 0, 0, 0, 0, 0, 0, 0x0E, 0x10];

/// A record of version 01.
fn record(call: &Call, room: usize) -> Result<Vec<u8>, u32> {
    write_record(0x01, call, room)
}

/// A record of version 02.
fn record_02(call: &Call, room: usize) -> Result<Vec<u8>, u32> {
    write_record(0x02, call, room)
}

/// A text of so many bytes that is a path, where one can be so long.
fn text(length: usize) -> String {
    "p".repeat(length)
}

#[test]
fn whole_case() {
    assert_eq!(replay(&WHOLE), "desk 1\n1 0 3600\nend 1\n");
    assert_eq!(write_journal(Version::One, &[advance(3_600)]), Ok(WHOLE.to_vec()));
}

#[test]
fn versions() {
    assert_eq!(replay(&[]), "desk 1\nstop 0 28\n");
    for byte in [0, 3, 4, 0x10, 0xFF] {
        assert_eq!(replay(&[byte]), "desk 1\nstop 0 28\n");
        assert_eq!(replay(&[byte, 0, 0]), "desk 1\nstop 0 28\n");
    }
    assert_eq!(replay(&[1]), "desk 1\nend 0\n");
    assert_eq!(replay(&[2]), "desk 1\nend 0\n");
    assert_eq!(replay(&[2, 0, 0]), "desk 1\nstop 0 27\n");
    // The whole case has no text, so it is the same in both versions.
    let whole = [&[2], &WHOLE[1..]].concat();
    assert_eq!(replay(&whole), "desk 1\n1 0 3600\nend 1\n");
}

#[test]
fn record_faults() {
    let after = |tail: &[u8]| replay(&[&WHOLE, tail].concat());
    let stop = "desk 1\n1 0 3600\nstop 1 27\n";
    // A lone byte, a record of length 0, a cut one, an unknown kind, one too long, one too short.
    let tails: [&[u8]; 8] = [
        &[0],
        &[0, 0],
        &[0, 2, 0x0C],
        &[0, 1, 0x00],
        &[0, 2, 0x11, 0],
        &[0, 3, 0x0C, 0, 0],
        &[0, 1, 0x0C],
        &[0xFF, 0xFF, 0x0C, 0],
    ];
    tails.iter().for_each(|tail| assert_eq!(after(tail), stop, "{tail:?}"));
    assert_eq!(after(&[0, 2, 0x0C, 9]), "desk 1\n1 0 3600\n2 1 0\nend 2\n");
}

#[test]
fn unknown_cap_byte_and_mode() {
    let good = attenuate(1, scope("a/", READ, Cap::Bytes(5), 0, 1));
    let record = record(&good, 100).unwrap();
    let with = |place: usize, byte: u8| {
        let mut journal = [&[1], &record[..]].concat();
        journal[1 + place] = byte;
        replay(&journal)
    };
    // Length 2, kind 1, token 4, prefix 3: the mode is byte 10, the cap byte 11.
    assert_eq!(with(10, 2), "desk 1\n1 4 0\nend 1\n");
    assert_eq!(with(10, 3), "desk 1\nstop 0 27\n");
    assert_eq!(with(11, 2), "desk 1\nstop 0 27\n");
    assert_eq!(with(11, 0), "desk 1\nstop 0 27\n");
}

/// A cap above 2^36 is read, and answered 1 by its call.
#[test]
fn cap_too_large_is_read() {
    for version in Version::ALL {
        let call = create(ANN, "v", 2, 1, Cap::Bytes(u64::MAX));
        let journal = write_journal(version, &[call]).unwrap();
        assert_eq!(replay(&journal), "desk 1\n1 1 0\nend 1\n");
    }
}

#[test]
fn longest() {
    let mut journal = vec![1];
    (0..16_381).for_each(|_| journal.extend([0, 2, 0x0C, 0]));
    (0..1).for_each(|_| journal.extend([0, 9, 0x01, 0, 0, 0, 0, 0, 0, 0, 0]));
    assert_eq!(journal.len(), MOST);
    assert!(replay(&journal).ends_with("\n16382 0 0\nend 16382\n"));
    journal.push(0);
    assert_eq!(replay(&journal), "desk 1\nstop 0 24\n");
    journal[0] = 7;
    assert_eq!(replay(&journal), "desk 1\nstop 0 24\n");
}

#[test]
fn record_writer() {
    assert_eq!(record(&look(1, &text(256)), 0), Err(1));
    assert_eq!(record(&look(1, &text(255)), 262), Err(12));
    assert_eq!(record(&look(1, &text(255)), 263).unwrap().len(), 263);
    for version in [0x01, 0x02] {
        let wide = attenuate(1, scope("", 3, NONE, 0, 0));
        assert_eq!(write_record(version, &wide, 0), Err(1));
        assert_eq!(write_record(version, &abandon(9), 4), Ok(vec![0, 2, 0x0C, 9]));
        assert_eq!(write_record(version, &abandon(9), 3), Err(12));
    }
}

/// An unknown version is 1, before a short buffer.
#[test]
fn unknown_versions_are_not_written() {
    for version in [0x00, 0x03, 0x10, 0xFF] {
        for room in [0, 1_000] {
            assert_eq!(write_record(version, &abandon(0), room), Err(BAD));
            assert_eq!(write_record(version, &look(1, "a"), room), Err(BAD));
        }
    }
}

/// The calls that have a text, with this one.
fn calls_with(text: &str) -> [Call; 6] {
    [
        create(ANN, text, 2, 1, NONE),
        grant(ANN, 1, scope(text, READ, NONE, 0, 1)),
        attenuate(1, scope(text, READ, NONE, 0, 1)),
        stage(0, text, 1),
        remove(ANN, 1, text),
        look(1, text),
    ]
}

#[test]
fn longest_texts_of_version_01() {
    for call in calls_with(&text(255)) {
        let journal = [&[1], &record(&call, 400).unwrap()[..]].concat();
        assert_eq!(read_journal(&journal), (vec![call], None));
    }
    for call in calls_with(&text(256)) {
        assert_eq!(record(&call, 400), Err(BAD));
        assert_eq!(record(&call, 0), Err(BAD));
    }
}

#[test]
fn texts_of_version_02() {
    for length in [0, 1, 255, 256, 512, 513, 1_023, 1_024] {
        for call in calls_with(&text(length)) {
            let journal = [&[2], &record_02(&call, 1_200).unwrap()[..]].concat();
            assert_eq!(read_journal(&journal), (vec![call], None), "{length}");
        }
    }
    for length in [1_025, 1_026, 1_280, 65_535] {
        for call in calls_with(&text(length)) {
            assert_eq!(record_02(&call, usize::MAX), Err(BAD), "{length}");
            assert_eq!(record_02(&call, 0), Err(BAD), "{length}");
        }
    }
}

/// A text above 1,024 bytes is 27 where the record is long enough to hold it.
#[test]
fn texts_too_long_when_read() {
    let journal = |length: usize| {
        let body = 1 + 4 + 2 + length;
        let mut journal = vec![2];
        journal.extend((body as u16).to_be_bytes());
        journal.extend([0x0E, 0, 0, 0, 1]);
        journal.extend((length as u16).to_be_bytes());
        journal.extend(text(length).bytes());
        journal
    };
    assert_eq!(read_journal(&journal(1_024)), (vec![look(1, &text(1_024))], None));
    assert_eq!(replay(&journal(1_024)), "desk 1\n1 1 0\nend 1\n");
    for length in [1_025, 1_026, 2_048, 65_000] {
        assert_eq!(read_journal(&journal(length)), (vec![], Some(RECORD)), "{length}");
        assert_eq!(replay(&journal(length)), "desk 1\nstop 0 27\n");
    }
}

/// A length with one byte more or less than the record has, and a length that is cut.
#[test]
fn text_lengths_that_do_not_fit() {
    for (version, width) in [(0x01, 1), (0x02, 2)] {
        let whole =
            [&[version], &write_record(version, &look(1, "abc"), 100).unwrap()[..]].concat();
        assert_eq!(replay(&whole), "desk 1\n1 4 0\nend 1\n");
        for length in [2, 4] {
            let mut journal = whole.clone();
            journal[8 + width - 1] = length;
            assert_eq!(replay(&journal), "desk 1\nstop 0 27\n");
        }
        for left in 0..width {
            let cut =
                [&[version, 0, 5 + left as u8, 0x0E, 0, 0, 0, 1], &vec![0; left][..]].concat();
            assert_eq!(replay(&cut), "desk 1\nstop 0 27\n");
        }
    }
    // The same bytes under the other version.
    let one = write_journal(Version::One, &[look(1, "abc")]).unwrap();
    let two = write_journal(Version::Two, &[look(1, "abc")]).unwrap();
    assert_eq!(replay(&[&[2], &one[1..]].concat()), "desk 1\nstop 0 27\n");
    assert_eq!(replay(&[&[1], &two[1..]].concat()), "desk 1\nstop 0 27\n");
}

/// The limit of a path is the same in both versions.
#[test]
fn paths_of_a_version_01_journal() {
    let mut calls = vec![create(ANN, "v", 2, 1, NONE), grant(ANN, 1, all())];
    calls.extend([open(0, 1), stage(0, &text(255), 0), look(1, &text(255)), look(1, &text(129))]);
    let wanted = "desk 1\n1 0 1\n2 0 1\n3 0 0\n4 0 0\n5 15 0\n6 15 0\nend 6\n";
    for version in Version::ALL {
        assert_eq!(replay(&write_journal(version, &calls).unwrap()), wanted);
    }
    // A longer path has no place in version 01; in version 02 the limit is met.
    calls.push(look(1, &text(512)));
    calls.push(look(1, &text(513)));
    assert_eq!(write_journal(Version::One, &calls), Err(BAD));
    let journal = write_journal(Version::Two, &calls).unwrap();
    assert!(replay(&journal).ends_with("\n7 15 0\n8 1 0\nend 8\n"));
}

#[test]
fn written_and_read_again() {
    for seed in 1..100 {
        let calls = history(seed, 100, 150, Texts::for_seed(seed));
        let journal = write_journal(Texts::for_seed(seed).version(), &calls).unwrap();
        if journal.len() <= MOST {
            assert_eq!(read_journal(&journal), (calls, None), "seed {seed}");
        }
    }
}

/// The records of both versions stand for the same calls.
#[test]
fn both_versions_of_a_journal() {
    for seed in 1..60 {
        let calls = history(seed, 100, 150, Texts::Of(Version::One));
        let [one, two] = Version::ALL.map(|version| write_journal(version, &calls).unwrap());
        if two.len() <= MOST {
            assert_eq!(read_journal(&one), read_journal(&two), "seed {seed}");
            assert_eq!(replay(&one), replay(&two), "seed {seed}");
        }
    }
    for call in calls_with("a/") {
        let [one, two] = [record(&call, 100).unwrap(), record_02(&call, 100).unwrap()];
        assert_eq!(one.len() + 1, two.len());
    }
}

fn file(name: &str) -> Vec<u8> {
    std::fs::read(format!("{}/../{name}", env!("CARGO_MANIFEST_DIR"))).unwrap()
}

/// The day is a journal of version 01; its calls in version 02 give the same transcript.
#[test]
fn the_day() {
    let (day, transcript) = (file("examples/day.journal"), file("crates/replay/stdout"));
    assert_eq!(day[0], 0x01);
    assert_eq!(replay(&day).as_bytes(), transcript);
    let (calls, fault) = read_journal(&day);
    assert_eq!((calls.len(), fault), (47, None));
    let again = write_journal(Version::Two, &calls).unwrap();
    assert_eq!(again[0], 0x02);
    assert!(again.len() > day.len());
    assert_eq!(replay(&again).as_bytes(), transcript);
}

/// The example of version 02 has the calls of `model::example`, and the transcript beside it.
#[test]
fn the_long_paths() {
    let journal = file("examples/long-paths.journal");
    assert_eq!(write_journal(Version::Two, &long_paths()), Ok(journal.clone()));
    assert_eq!(replay(&journal).as_bytes(), file("examples/long-paths.transcript"));
    let lengths = |call: &Call| call.path_or_prefix().map(<[u8]>::len);
    let lengths: Vec<usize> = long_paths().iter().filter_map(lengths).collect();
    assert_eq!(lengths, [134, 513, 208, 208, 512, 513, 208, 512, 511, 208, 208]);
}

/// The benchmark's mixed journals are those that were made when a path had at most 128 bytes.
#[test]
fn journals_of_paths_up_to_128() {
    let sums = [
        (7, 0xD5CE_9A61_9399_6C49),
        (15, 0x5D9E_238A_8583_8F6C),
        (23, 0xBEFB_7634_9F9D_C195),
        (31, 0x2AD7_F277_4E84_08AE),
        (39, 0x4FA2_45AC_89A9_3263),
        (47, 0x33E4_E4DF_3A2B_432E),
        (55, 0x96CF_83F7_A73D_1EAD),
        (63, 0x899D_54A2_248B_4B9B),
    ];
    for (seed, sum) in sums {
        assert_eq!(checksum(&journal_of(seed, Texts::UpTo128)), sum, "seed {seed}");
    }
}

/// What is read is written as it was, so there is one journal for a list of calls.
#[test]
fn read_and_written_again() {
    for seed in 1..2_000 {
        let journal = any_journal(seed, 30);
        let (calls, fault) = read_journal(&journal);
        let version = version(&journal).unwrap_or(Version::One);
        let again = write_journal(version, &calls).unwrap();
        let front = fault.is_none() && journal == again;
        let before_fault = fault.is_some() && (calls.is_empty() || journal.starts_with(&again));
        assert!(front || before_fault, "seed {seed}");
    }
}

/// Records before a fault are run and printed as without it.
#[test]
fn damaged() {
    let mut r = Random::new(5);
    let mut stops = [0; 3];
    for seed in 1..3_000 {
        let whole = whole_journal(seed, 30);
        let damaged = damaged_journal(&mut r, whole);
        let (calls, fault) = read_journal(&damaged);
        let text = replay(&damaged);
        assert_eq!(text.lines().count(), calls.len() + 2, "seed {seed}");
        let version = version(&damaged).unwrap_or(Version::One);
        let cut = write_journal(version, &calls).unwrap();
        let lines =
            |text: &str| text.lines().take(calls.len() + 1).map(String::from).collect::<Vec<_>>();
        assert_eq!(lines(&text), lines(&replay(&cut)), "seed {seed}");
        match fault {
            Some(27) => stops[0] += 1,
            Some(28) => stops[1] += 1,
            Some(24) => stops[2] += 1,
            _ => {}
        }
    }
    assert!(stops.iter().all(|n| *n > 20), "{stops:?}");
}

/// A record of each kind has the length the fields give.
#[test]
fn lengths() {
    let length = |call: Call| {
        let one = record(&call, 1_000).unwrap().len();
        // A text's length takes one byte more in version 02.
        let has_text = matches!(call.kind(), 0x02 | 0x06 | 0x07 | 0x0A | 0x0D | 0x0E);
        assert_eq!(record_02(&call, 1_000).unwrap().len(), one + usize::from(has_text));
        one - 2
    };
    let s = || scope("a/", READ, Cap::Bytes(1), 0, 1);
    assert_eq!(length(advance(0)), 9);
    assert_eq!(length(create(ANN, "v", 2, 1, NONE)), 1 + 32 + 2 + 2 + 1);
    assert_eq!(length(create(ANN, "v", 2, 1, Cap::Bytes(0))), 1 + 32 + 2 + 2 + 9);
    assert_eq!(length(deposit(1, 1)), 13);
    assert_eq!(length(delete(ANN, 1)), 37);
    assert_eq!(length(undelete(ANN, 1)), 37);
    assert_eq!(length(grant(ANN, 1, s())), 37 + 3 + 1 + 9 + 16);
    assert_eq!(length(attenuate(1, s())), 5 + 3 + 1 + 9 + 16);
    assert_eq!(length(revoke(ANN, 1)), 37);
    assert_eq!(length(open(0, 1)), 6);
    assert_eq!(length(stage(0, "ab", 1)), 2 + 3 + 8 + 32);
    assert_eq!(length(commit(0)), 2);
    assert_eq!(length(abandon(0)), 2);
    assert_eq!(length(remove(ANN, 1, "ab")), 37 + 3);
    assert_eq!(length(look(1, "ab")), 5 + 3);
    assert_eq!(length(register(1)), 9);
    assert_eq!(length(heartbeat(1)), 5);
}
