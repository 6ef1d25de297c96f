//! Each call's refusals in their order, and the readings that can be put as cases.

mod common;
use common::*;
use model::amount::Cap;
use model::call::{Call, Given};
use model::desk::Status;

const MOST: u64 = 1 << 36;

#[test]
fn create_in_order() {
    let mut case = Case::settled();
    let long = "n".repeat(65);
    for name in ["", "a b", "a/b", "\u{e9}", long.as_str()] {
        case.refuses(create(ANN, name, 4, 2, NONE), 1);
    }
    for (k, m) in [(1, 1), (17, 1), (2, 0), (2, 9), (0, 0)] {
        case.refuses(create(ANN, "v", k, m, NONE), 1);
    }
    case.refuses(create(ANN, "v", 4, 2, Cap::Bytes(MOST + 1)), 1);
    case.refuses(create(ANN, "v", 4, 2, NONE), 25);
    case.gives(create(BOB, "v", 2, 1, Cap::Bytes(MOST)), 2);
    case.gives(create(ANN, ".", 16, 8, Cap::Bytes(0)), 3);
    case.gives(create(ANN, &long[..64], 2, 8, NONE), 4);
    for number in 5..=8 {
        case.gives(create(ANN, &format!("v{number}"), 16, 1, NONE), number);
    }
    // The name before the row, and the number before the row.
    case.refuses(create(ANN, "v", 4, 2, NONE), 25);
    case.refuses(create(ANN, "more", 4, 2, NONE), 12);
    case.0.tables.last_volume = 65_535;
    case.refuses(create(ANN, "more", 4, 2, NONE), 21);
    case.refuses(create(ANN, "v", 4, 2, NONE), 25);
}

/// A DELETED volume keeps its name until it is collected.
#[test]
fn deleted_name_is_taken() {
    let mut case = Case::settled();
    case.accepts(delete(ANN, 1));
    case.refuses(create(ANN, "v", 4, 2, NONE), 25);
    case.advance_to(7_200);
    case.gives(create(ANN, "v", 4, 2, NONE), 2);
}

#[test]
fn deposit_in_order() {
    let mut case = Case::fresh();
    case.gives(create(ANN, "v", 4, 2, NONE), 1);
    for number in [0, 2, 65_536, u32::MAX] {
        case.refuses(deposit(number, u64::MAX), 2);
    }
    case.gives(deposit(1, 0), 0);
    case.refuses(deposit(1, u64::MAX), 20);
    case.refuses(deposit(1, 1_000_000_000_000_001), 20);
    case.gives(deposit(1, 1_000_000_000_000_000), 0);
    case.refuses(deposit(1, 1), 20);
    case.gives(deposit(1, 0), 0);
    case.accepts(delete(ANN, 1));
    case.refuses(deposit(1, u64::MAX), 8);
}

/// All deposits ever, also those of collected volumes.
#[test]
fn sum_of_deposits() {
    let mut case = Case::fresh();
    let most = 1_000_000_000_000_000;
    for number in 1..=1_000 {
        case.gives(create(ANN, "v", 2, 1, NONE), number);
        case.gives(deposit(number as u32, most), 0);
        case.accepts(delete(ANN, number as u32));
        case.advance_to(number * 7_200);
    }
    assert_eq!(case.0.left.sent_back, 1_000_000_000_000_000_000);
    case.gives(create(ANN, "v", 2, 1, NONE), 1_001);
    case.gives(deposit(1_001, 0), 0);
    case.refuses(deposit(1_001, 1), 20);
}

#[test]
fn delete_and_undelete_in_order() {
    let mut case = Case::settled();
    case.refuses(delete(BOB, 2), 2);
    case.refuses(undelete(BOB, 2), 2);
    case.refuses(undelete(BOB, 1), 3);
    case.refuses(undelete(ANN, 1), 8);
    case.refuses(delete(BOB, 1), 3);
    case.gives(delete(ANN, 1), 0);
    case.refuses(delete(BOB, 1), 3);
    case.refuses(delete(ANN, 1), 8);
    // The tokens are gone for good.
    case.refuses(look(1, "a"), 4);
    case.gives(undelete(ANN, 1), 0);
    case.refuses(look(1, "a"), 4);
    case.refuses(undelete(ANN, 1), 8);
    case.gives(grant(ANN, 1, all()), 2);
}

#[test]
fn grant_in_order() {
    let mut case = Case::settled();
    let bad = [
        scope("job", BOTH, NONE, 0, 1),
        scope("/", BOTH, NONE, 0, 1),
        scope("a//", BOTH, NONE, 0, 1),
        scope("../", BOTH, NONE, 0, 1),
        scope("", 3, NONE, 0, 1),
        scope("", BOTH, Cap::Bytes(MOST + 1), 0, 1),
        scope("", BOTH, NONE, 2, 1),
        scope(&format!("{}/", "p".repeat(512)), BOTH, NONE, 0, 1),
    ];
    for scope in bad {
        case.refuses(grant(BOB, 9, scope), 1);
    }
    case.refuses(grant(BOB, 9, all()), 2);
    case.refuses(grant(BOB, 1, all()), 3);
    let longest = format!("{}/", "p".repeat(511));
    case.gives(grant(ANN, 1, scope(&longest, READ, Cap::Bytes(MOST), u64::MAX, u64::MAX)), 2);
    for number in 3..=32 {
        case.gives(grant(ANN, 1, all()), number);
    }
    case.refuses(grant(ANN, 1, all()), 12);
    case.refuses(attenuate(1, all()), 12);
    case.0.tables.last_token = 65_535;
    case.refuses(grant(ANN, 1, all()), 21);
    case.refuses(attenuate(1, all()), 21);
    case.accepts(delete(ANN, 1));
    case.refuses(grant(ANN, 1, all()), 8);
    case.refuses(grant(BOB, 1, all()), 3);
}

#[test]
fn attenuate_in_order() {
    let mut case = Case::settled();
    let parent = scope("job/", BOTH, Cap::Bytes(1_000), 10, 20);
    case.gives(attenuate(1, parent), 2);
    case.refuses(attenuate(9, scope("job", BOTH, NONE, 0, 1)), 1);
    case.refuses(attenuate(9, all()), 4);
    let wider = [
        scope("", BOTH, Cap::Bytes(1), 10, 20),
        scope("jobs/", BOTH, Cap::Bytes(1), 10, 20),
        scope("job/", BOTH, NONE, 10, 20),
        scope("job/", BOTH, Cap::Bytes(1_001), 10, 20),
        scope("job/", BOTH, Cap::Bytes(1), 9, 20),
        scope("job/", BOTH, Cap::Bytes(1), 10, 21),
    ];
    for scope in wider {
        case.refuses(attenuate(2, scope), 17);
    }
    case.gives(attenuate(2, scope("job/", BOTH, Cap::Bytes(1_000), 10, 20)), 3);
    case.gives(attenuate(2, scope("job/a/", READ, Cap::Bytes(0), 15, 15)), 4);
    case.gives(attenuate(2, scope("job/", WRITE, Cap::Bytes(1), 10, 20)), 5);
    // Read within read or both, write within write or both, both within both.
    case.refuses(attenuate(4, scope("job/a/", WRITE, Cap::Bytes(0), 15, 15)), 17);
    case.refuses(attenuate(4, scope("job/a/", BOTH, Cap::Bytes(0), 15, 15)), 17);
    case.refuses(attenuate(5, scope("job/", READ, Cap::Bytes(1), 10, 20)), 17);
    case.refuses(attenuate(5, scope("job/", BOTH, Cap::Bytes(1), 10, 20)), 17);
    case.gives(attenuate(5, scope("job/", WRITE, Cap::Bytes(1), 10, 20)), 6);
}

#[test]
fn ninth_in_a_chain() {
    let mut case = Case::settled();
    for parent in 1..=7 {
        case.gives(attenuate(parent, all()), u64::from(parent) + 1);
    }
    case.refuses(attenuate(8, all()), 18);
    case.refuses(attenuate(8, scope("job", BOTH, NONE, 0, 1)), 1);
    case.0.tables.token_mut_for_test(8).scope.mode = READ;
    case.refuses(attenuate(8, all()), 17);
    case.0.tables.last_token = 65_535;
    case.refuses(attenuate(8, scope("", READ, NONE, 0, 1)), 18);
    // A branch above the deepest.
    case.0.tables.last_token = 8;
    case.gives(attenuate(7, all()), 9);
}

/// What is left of the parent's cap does not matter.
#[test]
fn attenuate_compares_with_the_cap() {
    let mut case = Case::settled();
    let cap = |n| scope("", BOTH, Cap::Bytes(n), 0, u64::MAX);
    case.gives(attenuate(1, cap(1_000)), 2);
    assert_eq!(case.session(2, &[("a", 1_000)]), 0);
    case.gives(attenuate(2, cap(1_000)), 3);
    assert_eq!(case.session(3, &[("b", 1)]), 10);
}

#[test]
fn revoke_in_order() {
    let mut case = Case::settled();
    for parent in [1, 1, 2, 4] {
        case.accepts(attenuate(parent, all()));
    }
    case.refuses(revoke(BOB, 9), 4);
    case.refuses(revoke(BOB, 2), 3);
    // 1 has children 2 and 3; 2 has 4; 4 has 5.
    case.gives(revoke(ANN, 2), 0);
    let live: Vec<u32> = case.0.tables.tokens.iter().flatten().map(|t| t.number).collect();
    assert_eq!(live, [1, 3]);
    case.refuses(revoke(ANN, 2), 4);
    // The lowest free row is used again, the number is not.
    case.gives(grant(ANN, 1, all()), 6);
    assert_eq!(case.0.tables.tokens[1].as_ref().unwrap().number, 6);
}

#[test]
fn open_in_order() {
    let mut case = Case::settled();
    case.gives(grant(ANN, 1, scope("", READ, NONE, 5, 9)), 2);
    case.gives(grant(ANN, 1, scope("", WRITE, NONE, 0, u64::MAX)), 3);
    case.refuses(open(4, 9), 1);
    case.refuses(open(0, 9), 4);
    case.refuses(open(0, 2), 5);
    case.gives(open(0, 3), 0);
    case.refuses(open(0, 9), 19);
    case.accepts(advance(5));
    case.refuses(open(1, 2), 6);
    case.accepts(advance(9));
    case.refuses(open(1, 2), 6);
    case.accepts(advance(10));
    case.refuses(open(1, 2), 5);
    case.enter_grace(1);
    case.refuses(open(1, 2), 5);
    case.refuses(open(1, 3), 8);
}

#[test]
fn stage_in_order() {
    let mut case = Case::settled();
    case.gives(grant(ANN, 1, scope("job/", WRITE, NONE, 0, 5)), 2);
    case.refuses(stage(4, "", 0), 1);
    case.refuses(stage(0, "a//b", 0), 1);
    case.refuses(stage(0, "a", MOST + 1), 1);
    case.refuses(stage(0, "a", 0), 19);
    case.accepts(open(0, 2));
    case.refuses(stage(0, "a", 0), 7);
    for i in 0..8 {
        case.gives(stage(0, &format!("job/{i}"), i), 0);
    }
    case.refuses(stage(0, "job/8", 0), 12);
    case.refuses(stage(0, "a", 0), 7);
    // A staged path again, at eight puts, in its old place.
    case.gives(stage(0, "job/3", 77), 0);
    let session = case.0.sessions[0].clone().unwrap();
    assert_eq!((session.puts.len(), session.puts[3].size), (8, 77));
    assert_eq!(session.puts[3].hash, [77; 32]);
    // No window, status or version is tested.
    case.accepts(advance(6));
    case.gives(stage(0, "job/3", MOST), 0);
    case.accepts(revoke(ANN, 2));
    case.refuses(stage(0, "a", 0), 4);
}

#[test]
fn paths() {
    let mut case = Case::settled();
    let long = "p".repeat(513);
    let bad = [
        "",
        "/",
        "/a",
        "a/",
        "a//b",
        ".",
        "..",
        "a/.",
        "a/..",
        "./a",
        "../a",
        "a/./b",
        "a/../b",
        "a b",
        "a\u{7f}",
        "a\tb",
        "\u{e9}",
        long.as_str(),
    ];
    for path in bad {
        case.refuses(look(9, path), 1);
        case.refuses(remove(BOB, 9, path), 1);
        case.refuses(stage(0, path, 0), 1);
    }
    for path in ["...", "a/...", ".a", "a.", "..a", "!", "~", "a,b:c", &long[..512]] {
        case.refuses(look(9, path), 4);
        case.refuses(remove(BOB, 9, path), 2);
        case.refuses(stage(0, path, 0), 19);
    }
}

/// Paths and prefixes on both sides of 128 and of 512 bytes, in each call that has one; names end at 64.
#[test]
fn long_paths() {
    let mut case = Case::settled();
    let long = "p".repeat(513);
    let prefix = |length: usize| scope(&format!("{}/", &long[..length - 1]), BOTH, NONE, 0, 9);
    for length in [64, 65, 128, 129, 511, 512, 513] {
        let number = if length <= 64 { 0 } else { 1 };
        assert_eq!(case.ask(create(BOB, &long[..length], 2, 1, NONE)).0, number);
    }
    for (token, length) in (2..).step_by(2).zip([128, 129, 511, 512]) {
        case.gives(grant(ANN, 1, prefix(length)), token);
        case.gives(attenuate(1, prefix(length)), token + 1);
        case.refuses(attenuate(token as u32, all()), 17);
    }
    case.refuses(grant(ANN, 1, prefix(513)), 1);
    case.refuses(attenuate(1, prefix(513)), 1);
    case.accepts(open(0, 1));
    for (size, length) in (1..).zip([128, 129, 511, 512]) {
        case.gives(stage(0, &long[..length], size), 0);
    }
    case.refuses(stage(0, &long, 5), 1);
    case.gives(commit(0), 1);
    for (size, length) in (1..).zip([128, 129, 511, 512]) {
        case.gives(look(1, &long[..length]), size);
    }
    case.refuses(look(1, &long), 1);
    case.refuses(remove(ANN, 1, &long), 1);
    for (version, length) in (2..).zip([128, 129, 511, 512]) {
        case.gives(remove(ANN, 1, &long[..length]), version);
        case.refuses(look(1, &long[..length]), 15);
    }
}

/// A prefix of 512 bytes covers no path; one of 511 covers the paths of one byte more.
#[test]
fn the_longest_prefixes() {
    let mut case = Case::settled();
    let under = |length: usize| format!("{}/", "p".repeat(length - 1));
    case.gives(attenuate(1, scope(&under(511), BOTH, NONE, 0, 9)), 2);
    case.gives(attenuate(1, scope(&under(512), BOTH, NONE, 0, 9)), 3);
    case.gives(attenuate(2, scope(&under(511), BOTH, NONE, 0, 9)), 4);
    case.refuses(attenuate(2, scope(&under(512), BOTH, NONE, 0, 9)), 17);
    case.accepts(open(0, 2));
    case.gives(stage(0, &format!("{}a", under(511)), 1), 0);
    case.refuses(stage(0, &format!("{}ab", under(511)), 1), 1);
    case.refuses(stage(0, &"p".repeat(512), 1), 7);
    case.accepts(open(1, 3));
    case.refuses(stage(1, &format!("{}a", under(511)), 1), 7);
    case.refuses(stage(1, &format!("{}a", under(512)), 1), 1);
}

#[test]
fn commit_in_order() {
    let mut case = Case::settled();
    case.refuses(commit(4), 1);
    case.refuses(commit(0), 19);
    case.gives(grant(ANN, 1, scope("", WRITE, Cap::Bytes(9), 0, 50)), 2);
    case.accepts(open(0, 2));
    case.accepts(stage(0, "a", 10));
    // A second session commits first.
    case.accepts(open(1, 1));
    case.gives(commit(1), 1);
    case.refuses(commit(0), 9);
    case.enter_grace(1);
    case.refuses(commit(0), 8);
    case.accepts(advance(51));
    case.refuses(commit(0), 5);
    case.accepts(revoke(ANN, 2));
    case.refuses(commit(0), 4);
    case.accepts(delete(ANN, 1));
    case.refuses(commit(0), 4);
    case.accepts(advance(3_600));
    case.accepts(advance(7_200));
    case.accepts(advance(7_251));
    case.refuses(commit(0), 2);
}

/// 21, 10, 11, 12, 13, 14: every fault at once, then one after the other mended.
#[test]
fn commit_limits_in_order() {
    let mut case = Case::fresh();
    case.accepts(create(ANN, "v", 4, 2, Cap::Bytes(99)));
    case.accepts(create(ANN, "full", 2, 1, NONE));
    case.gives(grant(ANN, 1, scope("", WRITE, Cap::Bytes(99), 0, 50)), 1);
    case.gives(grant(ANN, 2, all()), 2);
    (0..3).for_each(|_| case.accepts(register(1 << 42)));
    for group in 0..8 {
        let paths: Vec<String> = (0..8).map(|i| format!("{group}/{i}")).collect();
        let puts: Vec<(&str, u64)> = paths.iter().map(|p| (p.as_str(), 0)).collect();
        assert_eq!(case.session(2, &puts), 0);
    }
    case.0.tables.volume_mut_for_test(1).version = u32::MAX;
    case.accepts(open(0, 1));
    case.accepts(stage(0, "a", 100));
    case.refuses(commit(0), 21);
    case.accepts(abandon(0));
    case.0.tables.volume_mut_for_test(1).version = u32::MAX - 1;
    case.accepts(open(0, 1));
    case.accepts(stage(0, "a", 100));
    case.refuses(commit(0), 10);
    case.0.tables.token_mut_for_test(1).scope.cap = Cap::Bytes(100);
    case.refuses(commit(0), 11);
    case.0.tables.volume_mut_for_test(1).cap = Cap::Bytes(100);
    case.refuses(commit(0), 12);
    case.accepts(remove(ANN, 2, "3/3"));
    case.refuses(commit(0), 13);
    case.accepts(deposit(1, 1));
    case.refuses(commit(0), 14);
    (0..3).for_each(|_| case.accepts(register(25)));
    case.gives(commit(0), u64::from(u32::MAX));
    // The lowest free row is used; nothing is charged.
    assert_eq!(case.0.tables.entries[27].as_ref().unwrap().path, b"a");
    assert_eq!(case.0.tables.volume(1).unwrap().balance, 1);
    // 15 before 21.
    case.refuses(remove(ANN, 1, "b"), 15);
    case.refuses(remove(ANN, 1, "a"), 21);
    // A replaced path needs no new row.
    assert_eq!(case.session(2, &[("0/0", 0)]), 0);
    assert_eq!(case.session(2, &[("0/0", 0), ("new", 0)]), 12);
}

#[test]
fn quota_of_2_to_the_60() {
    let mut case = Case::settled();
    case.gives(attenuate(1, all()), 2);
    case.0.tables.token_mut_for_test(1).used = (1 << 60) - 10;
    assert_eq!(case.session(2, &[("a", 11)]), 10);
    assert_eq!(case.session(2, &[("a", 10)]), 0);
    assert_eq!(case.session(2, &[]), 0);
    assert_eq!(case.session(1, &[("a", 1)]), 10);
}

/// A path staged twice counts once, with its last size; a replaced entry gives nothing back.
#[test]
fn quota_is_gross() {
    let mut case = Case::settled();
    case.gives(attenuate(1, scope("", WRITE, Cap::Bytes(100), 0, 50)), 2);
    assert_eq!(case.session(2, &[("a", 60), ("a", 50)]), 0);
    assert_eq!(case.0.tables.token(2).unwrap().used, 50);
    assert_eq!(case.session(2, &[("a", 51)]), 10);
    assert_eq!(case.session(2, &[("a", 50)]), 0);
    assert_eq!(case.0.tables.raw(1), 50);
}

/// 11 and 13 are of the whole volume, replaced entries out.
#[test]
fn size_and_rent_of_the_new_content() {
    let mut case = Case::fresh();
    (0..6).for_each(|_| case.accepts(register(1 << 42)));
    case.accepts(create(ANN, "v", 4, 2, Cap::Bytes(1 << 20)));
    case.accepts(grant(ANN, 1, all()));
    assert_eq!(case.session(1, &[]), 0);
    case.accepts(deposit(1, 149));
    assert_eq!(case.session(1, &[("a", 1 << 20)]), 13);
    case.accepts(deposit(1, 1));
    assert_eq!(case.session(1, &[("a", 1 << 20)]), 0);
    assert_eq!(case.session(1, &[("b", 1)]), 11);
    assert_eq!(case.session(1, &[("a", (1 << 20) - 1), ("b", 1)]), 0);
    assert_eq!(case.session(1, &[("a", (1 << 20) - 1), ("b", 2)]), 11);
    // With no puts too.
    case.accepts(advance(3_600));
    assert_eq!(case.0.tables.volume(1).unwrap().balance, 0);
    case.accepts(open(0, 1));
    case.refuses(commit(0), 13);
}

/// Replaced objects give their room back only after all puts are placed.
#[test]
fn room_of_replaced_objects() {
    let mut case = Case::fresh();
    (0..3).for_each(|_| case.accepts(register(10)));
    case.accepts(create(ANN, "v", 2, 1, NONE));
    case.accepts(deposit(1, 9));
    case.accepts(grant(ANN, 1, all()));
    assert_eq!(case.session(1, &[("a", 12)]), 0);
    assert_eq!(case.0.tables.relay(1).unwrap().used, 6);
    assert_eq!(case.session(1, &[("a", 9)]), 14);
    assert_eq!(case.session(1, &[("a", 8)]), 0);
    assert_eq!(case.0.tables.relay(1).unwrap().used, 4);
    assert_eq!(case.session(1, &[("b", 7), ("c", 5)]), 14);
    assert_eq!(case.session(1, &[("b", 7), ("c", 4)]), 0);
    assert_eq!(case.0.tables.relay(3).unwrap().used, 10);
    assert_eq!(case.session(1, &[("d", 0)]), 0);
    assert_eq!(case.0.tables.relay(3).unwrap().held, 4);
    case.accepts(remove(ANN, 1, "b"));
    assert_eq!(case.0.tables.relay(3).unwrap().used, 6);
}

/// Held counts run from put to put.
#[test]
fn placed_in_staging_order() {
    let mut case = Case::fresh();
    (0..5).for_each(|_| case.accepts(register(1 << 42)));
    case.accepts(create(ANN, "v", 2, 1, NONE));
    case.accepts(deposit(1, 9));
    case.accepts(grant(ANN, 1, all()));
    assert_eq!(case.session(1, &[("z", 1), ("a", 1), ("m", 1)]), 0);
    let placement = |path: &str| case.0.tables.entry(1, path.as_bytes()).unwrap().placement.clone();
    assert_eq!(placement("z"), [1, 2, 3]);
    assert_eq!(placement("a"), [4, 5, 1]);
    assert_eq!(placement("m"), [2, 3, 4]);
    let rows: Vec<_> = case.0.tables.entries.iter().flatten().map(|e| e.path.clone()).collect();
    assert_eq!(rows, [b"z", b"a", b"m"]);
    // A replacing entry stays in its row, with a new placement.
    assert_eq!(case.session(1, &[("a", 7)]), 0);
    assert_eq!(case.0.tables.entries[1].as_ref().unwrap().placement, [5, 1, 2]);
}

/// A relay that has left gets nothing back, and its number stays in the placement.
#[test]
fn relay_leaves() {
    let mut case = Case::settled();
    assert_eq!(case.session(1, &[("a", 100)]), 0);
    case.accepts(advance(60));
    (2..=10).for_each(|relay| case.accepts(heartbeat(relay)));
    case.accepts(advance(100));
    assert!(case.0.tables.relay(1).is_none());
    assert_eq!(case.0.tables.entry(1, b"a").unwrap().placement, [1, 2, 3, 4, 5, 6]);
    case.gives(register(7), 11);
    case.gives(remove(ANN, 1, "a"), 2);
    let relay = case.0.tables.relays[0].as_ref().unwrap();
    assert_eq!((relay.number, relay.used, relay.held), (11, 0, 0));
}

#[test]
fn remove_in_order() {
    let mut case = Case::settled();
    assert_eq!(case.session(1, &[("a", 5)]), 0);
    case.refuses(remove(BOB, 2, "/"), 1);
    case.refuses(remove(BOB, 2, "b"), 2);
    case.refuses(remove(BOB, 1, "b"), 3);
    case.refuses(remove(ANN, 1, "b"), 15);
    case.accepts(delete(ANN, 1));
    case.refuses(remove(ANN, 1, "b"), 8);
    case.accepts(undelete(ANN, 1));
    case.enter_grace(1);
    case.gives(remove(ANN, 1, "a"), 2);
    case.refuses(remove(ANN, 1, "a"), 15);
}

#[test]
fn look_in_order() {
    let mut case = Case::settled();
    assert_eq!(case.session(1, &[("job/a", 5), ("b", 6)]), 0);
    case.gives(grant(ANN, 1, scope("job/", WRITE, NONE, 5, 9)), 2);
    case.gives(grant(ANN, 1, scope("job/", READ, NONE, 0, 9)), 3);
    case.refuses(look(9, "/"), 1);
    case.refuses(look(9, "b"), 4);
    case.refuses(look(2, "b"), 5);
    case.refuses(look(3, "b"), 7);
    case.refuses(look(3, "job/c"), 15);
    case.gives(look(3, "job/a"), 5);
    case.gives(look(1, "b"), 6);
    let answer = case.0.run(&look(3, "job/a"));
    assert_eq!(answer, Ok(Given { value: 5, hash: Some([5; 32]) }));
    case.accepts(advance(5));
    case.refuses(look(2, "b"), 6);
    case.accepts(advance(10));
    case.refuses(look(3, "b"), 5);
    // Status is not tested.
    case.enter_grace(1);
    case.gives(look(1, "b"), 6);
}

#[test]
fn register_and_heartbeat_in_order() {
    let mut case = Case::fresh();
    case.refuses(heartbeat(1), 26);
    case.refuses(register((1 << 42) + 1), 1);
    for number in 1..=32 {
        case.gives(register(number - 1), number);
    }
    case.refuses(register((1 << 42) + 1), 1);
    case.refuses(register(1), 12);
    case.0.tables.last_relay = 65_535;
    case.refuses(register(1), 21);
    for relay in [0, 33, 65_536, u32::MAX] {
        case.refuses(heartbeat(relay), 26);
    }
    case.gives(heartbeat(32), 0);
}

#[test]
fn sessions_are_kept_apart() {
    let mut case = Case::settled();
    case.refuses(abandon(4), 1);
    case.refuses(abandon(0), 19);
    case.accepts(open(0, 1));
    case.accepts(stage(0, "a", 1));
    case.gives(abandon(0), 0);
    case.refuses(stage(0, "a", 1), 19);
    case.refuses(look(1, "a"), 15);
    case.accepts(open(3, 1));
    case.refuses(stage(0, "a", 1), 19);
    case.gives(commit(3), 1);
    case.refuses(commit(3), 19);
}

/// A volume walks through grace, recovers, and is collected at the third.
#[test]
fn grace() {
    let mut case = Case::settled();
    case.accepts(create(ANN, "g", 4, 2, NONE));
    case.accepts(deposit(2, 150));
    case.gives(grant(ANN, 2, all()), 2);
    assert_eq!(case.session(2, &[("a", 1 << 20)]), 0);
    let state = |case: &Case| {
        let volume = case.0.tables.volume(2).unwrap();
        (volume.status, volume.grace, volume.balance)
    };
    case.accepts(advance(3_599));
    assert_eq!(state(&case), (Status::Active, 0, 150));
    case.accepts(advance(3_600));
    assert_eq!(state(&case), (Status::Active, 0, 0));
    case.accepts(deposit(2, 149));
    case.accepts(advance(7_200));
    assert_eq!(state(&case), (Status::Grace, 1, 149));
    // A deposit leaves the status; the paid epoch end restores it, with one rent.
    case.accepts(deposit(2, 11));
    assert_eq!(state(&case), (Status::Grace, 1, 160));
    case.refuses(open(0, 2), 8);
    case.gives(look(2, "a"), 1 << 20);
    case.gives(grant(ANN, 2, all()), 3);
    case.accepts(advance(10_800));
    assert_eq!(state(&case), (Status::Active, 0, 10));
    case.advance_to(18_000);
    assert_eq!(state(&case), (Status::Grace, 2, 10));
    // Delete keeps the grace count; undelete clears it.
    let mut other = Case(case.0.clone());
    other.accepts(delete(ANN, 2));
    assert_eq!(state(&other), (Status::Deleted(18_000), 2, 10));
    other.accepts(undelete(ANN, 2));
    assert_eq!(state(&other), (Status::Active, 0, 10));
    let before = case.0.left;
    case.accepts(advance(21_600));
    assert!(case.0.tables.volume(2).is_none() && case.0.tables.token(2).is_none());
    assert!(case.0.tables.entries.iter().all(|e| e.is_none()));
    assert_eq!(case.0.left.sent_back - before.sent_back, 10);
    assert_eq!(case.0.left.rents_paid, before.rents_paid);
}

/// DELETED pays what it has, up to the rent; overdue at an epoch end it pays first.
#[test]
fn deleted_volumes_pay() {
    let mut case = Case::fresh();
    (0..6).for_each(|_| case.accepts(register(1 << 42)));
    case.accepts(create(ANN, "v", 4, 2, NONE));
    case.accepts(deposit(1, 310));
    case.accepts(grant(ANN, 1, all()));
    assert_eq!(case.session(1, &[("a", 1 << 20)]), 0);
    case.accepts(delete(ANN, 1));
    case.accepts(advance(3_600));
    assert_eq!(case.0.tables.volume(1).unwrap().balance, 160);
    case.accepts(advance(7_200));
    assert_eq!((case.0.left.rents_paid, case.0.left.sent_back), (300, 10));
    assert!(case.0.tables.volume(1).is_none());
}

/// Numbers end at 65,535, counted by calls alone.
#[test]
fn numbers_end() {
    let mut case = Case::settled();
    for number in 2..=65_535 {
        case.gives(grant(ANN, 1, all()), number);
        case.gives(revoke(ANN, number as u32), 0);
    }
    case.refuses(grant(ANN, 1, all()), 21);
    let mut block = 0;
    for number in 11..=65_535 {
        if case.0.tables.relays.iter().all(|r| r.is_some()) {
            block += 100;
            case.accepts(advance(block));
        }
        case.gives(register(0), number);
    }
    case.refuses(register(0), 21);
}

#[test]
fn mode_above_two_is_bad() {
    let mut case = Case::settled();
    let call = |mode| Call::Grant { account: ANN, volume: 1, scope: scope("", mode, NONE, 0, 0) };
    case.refuses(call(3), 1);
    case.refuses(call(255), 1);
}

// Desks that no journal reaches.

/// Advance takes a relay at health 0 away, so only a clock set by hand leaves it in the table.
#[test]
fn heartbeat_at_health_0() {
    let mut case = Case::settled();
    case.0.tables.clock = 99;
    case.gives(heartbeat(1), 0);
    case.0.tables.clock = 199;
    case.refuses(heartbeat(1), 26);
    case.refuses(heartbeat(2), 26);
    assert!(case.0.tables.relay(1).is_some());
}

/// Delete drops the tokens, so only a status set by hand leaves them.
#[test]
fn tokens_of_a_deleted_volume() {
    let mut case = Case::settled();
    case.accepts(open(0, 1));
    case.0.tables.volume_mut_for_test(1).status = Status::Deleted(0);
    case.refuses(open(1, 1), 8);
    case.refuses(commit(0), 8);
    case.refuses(look(1, "a"), 15);
}
