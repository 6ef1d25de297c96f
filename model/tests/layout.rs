//! The desk as bytes, with places and lengths worked out by hand.

mod common;
use common::*;
use model::amount::Cap;
use model::layout::{desk_bytes, place, DESK};

const VOLUMES: usize = 10;
const ENTRIES: usize = VOLUMES + 8 * 141;
const TOKENS: usize = ENTRIES + 64 * 668;
const RELAYS: usize = TOKENS + 32 * 566;
const LASTS: usize = RELAYS + 32 * 32;
const SLOTS: usize = LASTS + 20;

fn at(case: &Case, from: usize, count: usize) -> Vec<u8> {
    desk_bytes(&case.0)[from..from + count].to_vec()
}

/// All zeros, but for the rate and the caps of free volume and token rows.
#[test]
fn fresh() {
    let mut wanted = vec![0; DESK];
    wanted[9] = 100;
    (0..8).for_each(|row| wanted[VOLUMES + 141 * row + 110] = 1);
    (0..32).for_each(|row| wanted[TOKENS + 566 * row + 533] = 1);
    assert_eq!(desk_bytes(&Case::fresh().0), wanted);
    assert_eq!(SLOTS + 4 * 4_500, DESK);
}

#[test]
fn a_volume_row() {
    let mut case = Case::fresh();
    case.accepts(create(ANN, "ab", 4, 2, Cap::Bytes(0x0102)));
    case.accepts(deposit(1, 7));
    case.accepts(advance(9));
    case.accepts(delete(ANN, 1));
    let mut row = vec![0, 0, 0, 1];
    row.extend([1; 32]);
    row.extend(b"ab");
    row.extend([0; 62]);
    row.extend([0, 0, 0, 0, 0, 0, 0, 2, 4, 2, 1, 0, 0, 0, 0, 0, 0, 1, 2, 2]);
    row.extend([0, 0, 0, 0, 0, 0, 0, 7, 0, 0, 0, 0, 0, 0, 0, 0, 0, 0, 0, 0, 9]);
    assert_eq!(at(&case, VOLUMES, 141), row);
    // The last numbers and the deposits; a cap with no limit is nine zeros.
    assert_eq!(at(&case, LASTS, 20), [0, 0, 0, 1, 0, 0, 0, 0, 0, 0, 0, 0, 0, 0, 0, 0, 0, 0, 0, 7]);
    case.accepts(create(BOB, "ab", 2, 1, NONE));
    assert_eq!(at(&case, VOLUMES + 141 + 108, 12), [2, 1, 0, 0, 0, 0, 0, 0, 0, 0, 0, 0]);
    // A collected volume's row is free again.
    case.advance_to(7_209);
    assert_eq!(at(&case, VOLUMES, 141), at(&Case::fresh(), VOLUMES, 141));
}

#[test]
fn an_entry_a_token_and_relays() {
    let mut case = Case::fresh();
    (0..3).for_each(|_| case.accepts(register(10)));
    case.accepts(create(ANN, "v", 2, 1, NONE));
    case.accepts(deposit(1, 9));
    case.accepts(grant(ANN, 1, all()));
    case.accepts(attenuate(1, scope("j/", WRITE, Cap::Bytes(5), 0, 3)));
    assert_eq!(case.session(2, &[("j/a", 3)]), 0);
    let entry = at(&case, ENTRIES, 668);
    assert_eq!(entry[..8], [0, 0, 0, 1, b'j', b'/', b'a', 0]);
    assert_eq!(entry[516..532], [0, 0, 0, 0, 0, 0, 0, 3, 0, 0, 0, 0, 0, 0, 0, 3]);
    assert_eq!(entry[532..564], [3; 32]);
    assert_eq!(entry[564..580], [0, 0, 0, 1, 0, 0, 0, 2, 0, 0, 0, 3, 0, 0, 0, 0]);
    assert_eq!(entry[660..], [0, 0, 0, 0, 0, 0, 0, 3]);
    let token = at(&case, TOKENS + 566, 566);
    assert_eq!(token[..14], [0, 0, 0, 2, 0, 0, 0, 1, 0, 0, 0, 1, b'j', b'/']);
    assert_eq!(token[524..542], [0, 0, 0, 0, 0, 0, 0, 2, 1, 1, 0, 0, 0, 0, 0, 0, 0, 5]);
    assert_eq!(
        token[542..],
        [0, 0, 0, 0, 0, 0, 0, 0, 0, 0, 0, 0, 0, 0, 0, 3, 0, 0, 0, 0, 0, 0, 0, 3]
    );
    let mut relay = vec![0, 0, 0, 2, 0, 0, 0, 0, 0, 0, 0, 10, 0, 0, 0, 0, 0, 0, 0, 2, 0, 0, 0, 1];
    relay.extend([0; 8]);
    assert_eq!(at(&case, RELAYS + 32, 32), relay);
}

#[test]
fn a_slot() {
    let mut case = Case::settled();
    case.accepts(open(2, 1));
    case.accepts(stage(2, "ab", 5));
    let slot = at(&case, SLOTS + 2 * 4_500, 4_500);
    assert_eq!(slot[..20], [0, 0, 0, 1, 0, 0, 0, 1, 0, 0, 0, 0, 0, 0, 0, 0, 0, 0, 0, 1]);
    assert_eq!(slot[20..23], *b"ab\0");
    assert_eq!(slot[532..548], [0, 0, 0, 0, 0, 0, 0, 2, 0, 0, 0, 0, 0, 0, 0, 5]);
    assert_eq!(slot[548..580], [5; 32]);
    assert!(slot[580..].iter().all(|b| *b == 0));
    case.accepts(abandon(2));
    assert!(at(&case, SLOTS, 4 * 4_500).iter().all(|b| *b == 0));
}

/// The longest name, path and prefix have no zeros after them.
#[test]
fn longest_texts() {
    let mut case = Case::settled();
    let (name, path) = ("n".repeat(64), "p".repeat(512));
    let prefix = format!("{}/", &path[..511]);
    case.accepts(create(ANN, &name, 2, 1, NONE));
    case.accepts(attenuate(1, scope(&prefix, READ, NONE, 0, 0)));
    assert_eq!(case.session(1, &[(&path, 3)]), 0);
    case.accepts(open(0, 1));
    case.accepts(stage(0, &path, 3));
    let text = |from: usize, text: &str| {
        let wanted = [text.as_bytes(), &(text.len() as u64).to_be_bytes()].concat();
        assert_eq!(at(&case, from, text.len() + 8), wanted);
    };
    text(VOLUMES + 141 + 36, &name);
    text(ENTRIES + 4, &path);
    text(TOKENS + 566 + 12, &prefix);
    text(SLOTS + 20, &path);
}

#[test]
fn places() {
    assert_eq!(place(0), "clock and rate, byte 0");
    assert_eq!(place(VOLUMES), "volume row 0, byte 0");
    assert_eq!(place(ENTRIES - 1), "volume row 7, byte 140");
    assert_eq!(place(ENTRIES + 668), "entry row 1, byte 0");
    assert_eq!(place(TOKENS), "token row 0, byte 0");
    assert_eq!(place(RELAYS + 33), "relay row 1, byte 1");
    assert_eq!(place(LASTS), "last numbers and deposits, byte 0");
    assert_eq!(place(DESK - 1), "slot 3, byte 4499");
    assert_eq!(place(DESK), "after the desk, byte 0");
}
