//! Random histories: the self-check after every call, demand 3, and what they reach.

use model::random::{history, rate_for, Texts};
use model::second_list::{holds, run, second_list, Form};
use model::survey::{Survey, EVENTS, NOT_REACHED, REACHED};

#[test]
fn invariants_and_demand_3() {
    let mut survey = Survey::default();
    for seed in 1..=300 {
        survey.add(seed, 700).unwrap();
    }
    println!("{} histories, {} calls", survey.histories, survey.calls);
    println!("dropped by the second lists: {:?}", survey.dropped);
    assert_eq!(survey.not_met(), Vec::<String>::new());
    assert!(survey.dropped.iter().all(|n| *n > 10_000));
}

#[test]
fn short_histories() {
    let mut survey = Survey::default();
    for seed in 10_000..12_000 {
        survey.add(seed, 60).unwrap();
    }
}

#[test]
fn the_seed_decides() {
    for seed in 1..20 {
        let of = |seed| history(seed, 100, 200, Texts::for_seed(seed));
        assert_eq!(of(seed), of(seed));
        assert_ne!(of(seed), of(seed + 1));
    }
}

/// Sessions that stand together in the first list need no move.
#[test]
fn second_list_of_second_list() {
    for seed in 1..60 {
        let rate = rate_for(seed);
        let calls = history(seed, rate, 400, Texts::for_seed(seed));
        let (answers, _) = run(&calls, rate);
        let places = second_list(&calls, &answers, Form::Together);
        let second: Vec<_> = places.iter().map(|i| calls[*i].clone()).collect();
        assert_eq!(holds(&second, rate, Form::Together), Ok(0));
        assert_eq!(holds(&second, rate, Form::InPlace), Ok(0));
    }
}

/// The refusals of each kind, as document 01 lists them.
const LISTED: [(u8, &[u32]); 16] = [
    (0x01, &[16]),
    (0x02, &[1, 25, 21, 12]),
    (0x03, &[2, 8, 20]),
    (0x04, &[2, 3, 8]),
    (0x05, &[2, 3, 8]),
    (0x06, &[1, 2, 3, 8, 21, 12]),
    (0x07, &[1, 4, 17, 18, 21, 12]),
    (0x08, &[4, 3]),
    (0x09, &[1, 19, 4, 5, 6, 8]),
    (0x0A, &[1, 19, 4, 7, 12]),
    (0x0B, &[1, 19, 2, 4, 5, 8, 9, 21, 10, 11, 12, 13, 14]),
    (0x0C, &[1, 19]),
    (0x0D, &[1, 2, 3, 8, 15, 21]),
    (0x0E, &[1, 4, 5, 6, 7, 15]),
    (0x0F, &[1, 21, 12]),
    (0x10, &[26]),
];

/// What the survey asks for is all of it, but for what no journal reaches.
#[test]
fn the_survey_asks_for_every_refusal() {
    for ((kind, listed), (same, reached)) in LISTED.iter().zip(REACHED) {
        let not_reached = NOT_REACHED.iter().filter(|(k, _, _)| k == kind).map(|(_, a, _)| *a);
        let mut all: Vec<u32> = reached.iter().copied().chain(not_reached).collect();
        let mut wanted = [&[0], *listed].concat();
        all.sort_unstable();
        wanted.sort_unstable();
        assert_eq!((*kind, wanted), (same, all));
    }
    let mut names = EVENTS.to_vec();
    names.sort_unstable();
    names.dedup();
    assert_eq!(names.len(), EVENTS.len());
}
