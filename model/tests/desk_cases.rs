//! The hand-checked cases of the desk.

mod common;
use common::*;
use model::amount::Cap;
use model::desk::{choose, effective, rent, Relay, Status};

#[test]
fn sizes_and_rent() {
    assert_eq!(effective(10, 4, 2), 15);
    assert_eq!(effective(1, 4, 2), 2);
    assert_eq!(rent(1, 4, 2, 100), 1);
    assert_eq!(rent(1 << 20, 4, 2, 100), 150);
    assert_eq!(rent(0, 4, 2, 100), 0);
    assert_eq!(rent(1 << 20, 4, 2, 0), 0);
    // Rounded up to whole bytes, then to whole coins.
    assert_eq!(effective(7_864, 3, 1), 10_486);
    assert_eq!(rent(7_864, 3, 1, 100), 2);
}

#[test]
fn fewest_held_first() {
    let relay = |number: u32, held: u32| Relay { number, capacity: 0, used: 0, held, heartbeat: 0 };
    let relays: Vec<Relay> =
        (1..).zip([3, 0, 0, 2, 1, 0]).map(|(number, held)| relay(number, held)).collect();
    let eligible: Vec<&Relay> = relays.iter().collect();
    assert_eq!(choose(&eligible, 3), Some(vec![2, 3, 6]));
    assert_eq!(choose(&eligible, 6), Some(vec![2, 3, 6, 5, 4, 1]));
    assert_eq!(choose(&eligible, 7), None);
    // By number, not by row.
    let reversed: Vec<&Relay> = relays.iter().rev().collect();
    assert_eq!(choose(&reversed, 3), Some(vec![2, 3, 6]));
}

#[test]
fn health() {
    let mut case = Case::fresh();
    case.accepts(advance(1_000));
    (0..3).for_each(|_| case.accepts(register(1 << 42)));
    case.accepts(create(ANN, "v", 2, 1, NONE));
    case.accepts(deposit(1, 1_000));
    case.accepts(grant(ANN, 1, all()));
    case.accepts(advance(1_050));
    assert_eq!(case.0.tables.relay(1).unwrap().health(1_050), 50);
    assert_eq!(case.session(1, &[("a", 1)]), 0);
    case.accepts(advance(1_051));
    assert_eq!(case.0.tables.relay(1).unwrap().health(1_051), 49);
    assert_eq!(case.session(1, &[("b", 1)]), 14);
    case.gives(heartbeat(2), 0);
    case.accepts(advance(1_099));
    case.accepts(heartbeat(3));
    case.accepts(advance(1_100));
    case.refuses(heartbeat(1), 26);
    // Relays 2 and 3 had heartbeats; row 0 is free and is used again.
    assert!(case.0.tables.relays[0].is_none() && case.0.tables.relay(2).is_some());
    case.gives(register(5), 4);
    assert_eq!(case.0.tables.relays[0].as_ref().unwrap().number, 4);
}

fn family() -> Case {
    let mut case = Case::settled();
    let cap = |n| scope("", BOTH, Cap::Bytes(n), 0, u64::MAX);
    case.gives(attenuate(1, cap(1_000)), 2);
    case.gives(attenuate(2, cap(600)), 3);
    case.gives(attenuate(2, cap(600)), 4);
    assert_eq!(case.session(3, &[("a", 600)]), 0);
    case
}

#[test]
fn family_quota() {
    let mut case = family();
    assert_eq!(case.session(4, &[("b", 401)]), 10);
    assert_eq!(case.session(4, &[("b", 400)]), 0);
    let used: Vec<u64> = (1..=4).map(|n| case.0.tables.token(n).unwrap().used).collect();
    assert_eq!(used, [1_000, 1_000, 600, 400]);
    // Nothing is given back by a remove.
    case.gives(remove(ANN, 1, "a"), 3);
    assert_eq!(case.session(4, &[("b", 1)]), 10);
    assert_eq!(case.session(4, &[("b", 0)]), 0);
}

#[test]
fn collected_after_7200_blocks() {
    let mut case = Case::settled();
    case.accepts(deposit(1, 5));
    case.accepts(advance(100));
    case.gives(delete(ANN, 1), 0);
    case.accepts(advance(3_700));
    case.accepts(advance(7_299));
    let mut other = Case(case.0.clone());
    case.gives(undelete(ANN, 1), 0);
    case.accepts(advance(7_300));
    assert_eq!(case.0.tables.volume(1).unwrap().status, Status::Active);
    other.gives(advance(7_300), 7_300);
    assert!(other.0.tables.volume(1).is_none());
    assert_eq!(other.0.left.sent_back, 1_000_000_005);
    other.refuses(undelete(ANN, 1), 2);
}

#[test]
fn clock() {
    let mut case = Case::fresh();
    case.refuses(advance(7_200), 16);
    assert_eq!(Case::fresh().ask(advance(7_199)), (0, 7_199));
    // Few blocks, but two epoch ends.
    case.gives(advance(3_599), 3_599);
    case.refuses(advance(7_200), 16);
    case.gives(advance(7_199), 7_199);
    case.refuses(advance(7_198), 16);
    case.gives(advance(7_199), 7_199);
    case.gives(advance(7_200), 7_200);
    case.refuses(advance(14_400), 16);
    case.gives(advance(14_399), 14_399);
    case.refuses(advance(u64::MAX), 16);
    // The last block, from a desk set near it.
    case.0.tables.clock = (1 << 40) - 5;
    case.refuses(advance((1 << 40) + 1), 16);
    case.gives(advance(1 << 40), 1 << 40);
    case.gives(advance(1 << 40), 1 << 40);
    case.refuses(advance((1 << 40) + 1), 16);
}

// Tempting and wrong.

#[test]
fn prefix_ends_with_a_slash() {
    let mut case = Case::settled();
    case.gives(grant(ANN, 1, scope("job/", BOTH, NONE, 0, u64::MAX)), 2);
    case.accepts(open(0, 2));
    case.refuses(stage(0, "jobs/x", 1), 7);
    case.refuses(stage(0, "job", 1), 7);
    case.gives(stage(0, "job/x", 1), 0);
    case.refuses(grant(ANN, 1, scope("job", BOTH, NONE, 0, 1)), 1);
}

#[test]
fn cap_zero_is_zero() {
    let mut case = Case::settled();
    case.gives(attenuate(1, scope("", WRITE, Cap::Bytes(0), 0, 9)), 2);
    assert_eq!(case.session(2, &[("a", 1)]), 10);
    assert_eq!(case.session(2, &[("a", 0)]), 0);
    case.gives(create(ANN, "zero", 2, 1, Cap::Bytes(0)), 2);
    case.gives(grant(ANN, 2, all()), 3);
    assert_eq!(case.session(3, &[("a", 1)]), 11);
    assert_eq!(case.session(3, &[("a", 0)]), 0);
}

#[test]
fn rights_are_tested_again_at_commit() {
    let mut case = Case::settled();
    case.gives(grant(ANN, 1, scope("", WRITE, NONE, 0, 10)), 2);
    case.accepts(open(0, 2));
    case.accepts(open(1, 1));
    case.accepts(advance(10));
    let mut in_time = Case(case.0.clone());
    in_time.gives(commit(0), 1);
    case.accepts(advance(11));
    case.refuses(commit(0), 5);
    case.accepts(revoke(ANN, 1));
    case.refuses(commit(1), 4);
    case.refuses(stage(1, "a", 1), 4);
    case.accepts(abandon(1));
}

/// A number is not given again, so an old session finds nothing.
#[test]
fn numbers_are_not_given_again() {
    let mut case = Case::settled();
    case.accepts(open(0, 1));
    case.accepts(stage(0, "a", 1));
    case.accepts(delete(ANN, 1));
    case.refuses(commit(0), 4);
    case.advance_to(7_200);
    case.refuses(commit(0), 2);
    case.gives(create(BOB, "v", 4, 2, NONE), 2);
    case.gives(grant(BOB, 2, all()), 2);
    case.refuses(commit(0), 2);
    case.refuses(stage(0, "b", 1), 4);
    assert_eq!(case.0.tables.volumes[0].as_ref().unwrap().number, 2);
}
