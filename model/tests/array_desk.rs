//! The test that is answered 1 before all else: desks that pass it, and one part broken at a time.

use model::amount::Cap;
use model::array_desk::{is_path_by_bytes, is_path_by_walks, ArrayDesk, Tester, Text};
use model::desk::{is_path, Desk, LONGEST_PATH, RATE};
use model::random::{history, path_text, rate_for, Random, Texts};
use model::settings::{calls, Setting, EMPTY, FULL, HALF};

/// The full desk with paths of this length.
fn full(path: usize) -> ArrayDesk {
    let mut desk = Desk::fresh(RATE);
    for call in calls(Setting { path, ..FULL }) {
        assert!(desk.run(&call).is_ok(), "{call:?}");
    }
    let t = &desk.tables;
    let rows = [
        t.volumes.iter().flatten().count(),
        t.entries.iter().flatten().count(),
        t.tokens.iter().flatten().count(),
        t.relays.iter().flatten().count(),
        desk.sessions.iter().flatten().map(|s| s.puts.len()).sum(),
    ];
    assert_eq!(rows, [8, 64, 32, 32, 32]);
    ArrayDesk::from(&desk)
}

type Change = fn(&mut ArrayDesk);

/// Each is one step past a limit of the full desk.
const BROKEN: [(&str, Change); 48] = [
    ("clock", |d| d.clock = (1 << 40) + 1),
    ("deposits", |d| d.deposits = 1_000_000_000_000_000_001),
    ("last volume number", |d| d.last_volume = 65_536),
    ("last token number", |d| d.last_token = 65_536),
    ("last relay number", |d| d.last_relay = 65_536),
    ("volume number not given", |d| d.volumes[7].no = 9),
    ("volume number twice", |d| d.volumes[7].no = 7),
    ("name twice", |d| d.volumes[7].name = d.volumes[6].name),
    ("name empty", |d| d.volumes[7].name = Text::new(b"")),
    ("name's length outside", |d| d.volumes[7].name.len = 65),
    ("K", |d| d.volumes[7].k = 17),
    ("M", |d| d.volumes[7].m = 0),
    ("volume's cap", |d| d.volumes[7].cap = Cap::Bytes((1 << 36) + 1)),
    ("balance", |d| d.volumes[7].balance = 1_000_000_000_000_001),
    ("ACTIVE with grace 1", |d| d.volumes[7].grace = 1),
    ("GRACE_PERIOD with grace 0", |d| d.volumes[7].status = 1),
    ("GRACE_PERIOD with grace 3", |d| (d.volumes[7].status, d.volumes[7].grace) = (1, 3)),
    ("DELETED with grace 3", |d| (d.volumes[7].status, d.volumes[7].grace) = (2, 3)),
    ("delete after the clock", |d| (d.volumes[7].status, d.volumes[7].deleted) = (2, 1)),
    ("entry's volume", |d| d.entries[63].volume = 9),
    ("path ends with a slash", |d| {
        let last = d.entries[63].path.len - 1;
        d.entries[63].path.bytes[last] = b'/'
    }),
    ("path's length outside", |d| d.entries[63].path.len = 513),
    ("path twice", |d| d.entries[63].path = d.entries[0].path),
    ("size", |d| d.entries[63].size = (1 << 36) + 1),
    ("placement too short", |d| d.entries[63].len = 23),
    ("relay twice in a placement", |d| d.entries[63].relays[23] = d.entries[63].relays[0]),
    ("relay not given in a placement", |d| d.entries[63].relays[23] = 33),
    ("no relay in a placement", |d| d.entries[63].relays[23] = 0),
    ("token number not given", |d| d.tokens[31].no = 33),
    ("token number twice", |d| d.tokens[31].no = 1),
    ("token's volume", |d| d.tokens[31].volume = 9),
    ("prefix with no slash", |d| d.tokens[31].prefix.len -= 1),
    ("prefix's length outside", |d| d.tokens[31].prefix.len = 513),
    ("token's cap", |d| d.tokens[31].cap = Cap::Bytes((1 << 36) + 1)),
    ("from after until", |d| (d.tokens[31].from, d.tokens[31].until) = (2, 1)),
    ("used of a token", |d| d.tokens[31].used = (1 << 60) + 1),
    ("parent not in the table", |d| d.tokens[31].parent = 33),
    ("own parent", |d| d.tokens[31].parent = 32),
    ("ring of parents", |d| d.tokens[0].parent = 8),
    ("chain of 9", |d| d.tokens[8].parent = 1),
    ("relay number not given", |d| d.relays[31].no = 33),
    ("relay number twice", |d| d.relays[31].no = 1),
    ("capacity", |d| d.relays[31].capacity = (1 << 42) + 1),
    ("used of a relay", |d| d.relays[31].used += 1),
    ("held of a relay", |d| d.relays[31].held += 1),
    ("capacity below used", |d| d.relays[31].capacity = d.relays[31].used - 1),
    ("heartbeat after the clock", |d| d.relays[31].beat = 1),
    ("staged path twice", |d| d.sessions[3].puts[7].path = d.sessions[3].puts[0].path),
];

const BROKEN_SLOTS: [(&str, Change); 6] = [
    ("session's token", |d| d.sessions[3].token = 33),
    ("session's volume", |d| d.sessions[3].volume = 9),
    ("nine puts", |d| d.sessions[3].count = 9),
    ("staged path", |d| d.sessions[3].puts[7].path.bytes[0] = b' '),
    ("staged path's length outside", |d| d.sessions[3].puts[7].path.len = 513),
    ("staged size", |d| d.sessions[3].puts[7].size = (1 << 36) + 1),
];

const SOUND: [(&str, Change); 7] = [
    ("as it is", |_| ()),
    ("name of another owner", |d| {
        (d.volumes[7].owner, d.volumes[7].name) = ([1; 32], d.volumes[6].name)
    }),
    ("path in another volume", |d| {
        (d.entries[63].volume, d.entries[63].path) = (2, d.entries[0].path)
    }),
    ("a token wider than its parent, in another volume", |d| {
        (d.tokens[31].volume, d.tokens[31].prefix) = (2, Text::new(b""))
    }),
    ("a session's token gone", |d| (d.tokens[31].no, d.sessions[3].token) = (0, 32)),
    ("a relay gone that placements name", |d| d.relays[31].no = 0),
    ("DELETED with tokens, overdue", |d| {
        (d.volumes[0].status, d.clock) = (2, 7_201);
    }),
];

#[test]
fn one_part_broken() {
    for path in [128, LONGEST_PATH] {
        broken_parts(&full(path), Tester::new(is_path_by_bytes));
        broken_parts(&full(path), Tester::new(is_path_by_walks));
    }
}

fn broken_parts(desk: &ArrayDesk, mut tester: Tester) {
    for (name, change) in BROKEN.iter().chain(&BROKEN_SLOTS) {
        let mut broken = desk.clone();
        change(&mut broken);
        assert!(!tester.test(&broken), "{name}");
        // What was seen of a broken desk does not stay.
        assert!(tester.test(desk), "after {name}");
    }
}

#[test]
fn still_sound() {
    let (desk, mut tester) = (full(LONGEST_PATH), Tester::new(is_path_by_walks));
    for (name, change) in SOUND {
        let mut other = desk.clone();
        change(&mut other);
        assert!(tester.test(&other), "{name}");
    }
    for setting in [EMPTY, HALF] {
        let mut desk = Desk::fresh(RATE);
        assert!(calls(setting).iter().all(|call| desk.run(call).is_ok()));
        assert!(tester.test(&ArrayDesk::from(&desk)));
    }
}

/// Free rows and idle slots may hold anything.
#[test]
fn free_rows() {
    let mut desk = full(LONGEST_PATH);
    desk.volumes.iter_mut().for_each(|v| v.no = 0);
    desk.entries.iter_mut().for_each(|e| e.volume = 0);
    desk.tokens.iter_mut().for_each(|t| t.no = 0);
    desk.relays.iter_mut().for_each(|r| r.no = 0);
    desk.sessions.iter_mut().for_each(|s| s.token = 0);
    (desk.volumes[7].k, desk.entries[63].len, desk.sessions[3].count) = (0, 99, 99);
    (desk.last_volume, desk.last_token, desk.last_relay) = (0, 0, 0);
    assert!(Tester::new(is_path_by_bytes).test(&desk));
}

#[test]
fn every_desk_reached_passes() {
    let mut tester = Tester::new(is_path_by_walks);
    for seed in 1..=60 {
        let rate = rate_for(seed);
        let mut desk = Desk::fresh(rate);
        for (place, call) in history(seed, rate, 400, Texts::for_seed(seed)).iter().enumerate() {
            if desk.run(call).is_ok() {
                assert!(tester.test(&ArrayDesk::from(&desk)), "seed {seed}, call {place}");
            }
        }
    }
}

#[test]
fn paths_in_two_ways() {
    let mut r = Random::new(3);
    for _ in 0..200_000 {
        let mut text = path_text(&mut r);
        text.truncate(LONGEST_PATH);
        let wanted = is_path(&text);
        assert_eq!(
            (is_path_by_bytes(&text), is_path_by_walks(&text)),
            (wanted, wanted),
            "{text:?}"
        );
    }
}
