//! Journals: of mostly one kind of call, of a mixture, and of a growing length.

use crate::timing::{best, less, line};
use model::amount::Cap;
use model::call::Call;
use model::desk::{Desk, EPOCH, LONGEST_PATH, MOST_CAPACITY, RATE};
use model::journal::{self, read_journal, write_journal, write_record, Version, MOST};
use model::random::{journal_of, Texts};
use model::settings::{self, all, path, session, Setting, EMPTY, FULL, OWNER};
use std::hint::black_box;
use std::time::Duration;

/// A journal of a setting's calls, then of `again` for 0, 1, 2 .., until it is full, in the first version that holds the
/// paths. Gives it with how many calls are counted: all of `again` for which `is_counted`.
fn filled(
    setting: Setting,
    mut again: impl FnMut(usize) -> Vec<Call>,
    is_counted: fn(&Call) -> bool,
) -> (Vec<u8>, usize) {
    let version = setting.version().byte();
    // The version holds every path of the setting and every name, and every mode is known.
    let record = |call: &Call| write_record(version, call, usize::MAX).unwrap();
    let mut journal = made(setting);
    let mut counted = 0;
    for step in 0.. {
        let calls = again(step);
        let records: Vec<u8> = calls.iter().flat_map(record).collect();
        if journal.len() + records.len() > MOST {
            break;
        }
        journal.extend(records);
        counted += calls.iter().filter(|call| is_counted(call)).count();
    }
    (journal, counted)
}

/// The journal of a setting's calls.
fn made(setting: Setting) -> Vec<u8> {
    // The version holds every path of the setting and every name, and every mode is known.
    write_journal(setting.version(), &settings::calls(setting)).unwrap()
}

/// Every call of the journal is accepted, so that the figure is of accepted calls.
fn all_accepted(journal: &[u8]) -> bool {
    let mut desk = Desk::fresh(RATE);
    read_journal(journal).0.iter().all(|call| desk.run(call).is_ok())
}

/// Replays one journal with both, and gives the best times.
fn replayed(journal: &[u8], rounds: usize) -> (Duration, Duration) {
    let mut out = vec![0; pailorchard::replay_room(journal.len())];
    let library = || {
        let _ = black_box(pailorchard::replay_into(black_box(journal), &mut out));
    };
    let model = || {
        black_box(journal::replay(black_box(journal)));
    };
    best(rounds, library, model)
}

/// Whether the library reads a journal to its end: one from before version 02 does not read all of them.
pub fn is_read(journal: &[u8]) -> bool {
    let transcript = pailorchard::replay(journal).unwrap_or_default();
    let last = transcript.trim_ascii_end().rsplit(|byte| *byte == b'\n').next();
    last.is_some_and(|line| line.starts_with(b"end "))
}

/// Prints the time of a journal for each of the calls or sessions that are counted in it.
fn show(named: &Named, rounds: usize) {
    if !is_read(&named.journal) {
        println!("{:<44} this library does not read it", named.name);
        return;
    }
    let whole = replayed(&named.journal, rounds);
    let time = match &named.before {
        Some(before) => less(whole, replayed(before, rounds)),
        None => whole,
    };
    line(&named.name, named.counted, time);
}

fn any(_: &Call) -> bool {
    true
}

fn is_commit(call: &Call) -> bool {
    matches!(call, Call::Commit { .. })
}

/// Ten relays and a volume of 4+2 with a chain of 8 tokens, and entries with short paths.
const SOME: Setting =
    Setting { relays: 10, shards: (4, 2), volumes: 1, chains: 1, entries: 8, path: 12, ..EMPTY };
/// As SOME with 64 entries, with paths of 128 bytes, and with paths as long as they can be.
const MANY: Setting = Setting { entries: 64, ..SOME };
const LONG: Setting = Setting { path: 128, ..MANY };
const LONGEST: Setting = Setting { path: LONGEST_PATH, ..MANY };
/// All tables full but the tokens, one chain of 8, and no session open.
const LARGE: Setting = Setting { path: 12, chains: 1, sessions: 0, ..FULL };

fn look(setting: Setting) -> impl FnMut(usize) -> Vec<Call> {
    move |step| vec![Call::Look { token: 1, path: path(setting.path, step % setting.entries) }]
}

fn stage(setting: Setting) -> impl FnMut(usize) -> Vec<Call> {
    move |step| {
        let (path, hash) = (path(setting.path, step % 8), [step as u8; 32]);
        vec![Call::Stage { slot: 0, path, size: step as u64, hash }]
    }
}

/// A session of 8 puts that are entries already, each time other ones.
fn commit(setting: Setting) -> impl FnMut(usize) -> Vec<Call> {
    move |step| {
        let first = step * 8 % setting.entries;
        session(0, 1, (first..first + 8).map(|n| path(setting.path, n)))
    }
}

fn registers(step: usize) -> Vec<Call> {
    let mut calls = vec![Call::Register { capacity: MOST_CAPACITY }; 32];
    calls.push(Call::Advance { block: (step as u64 + 1) * 100 });
    calls
}

/// Eight volumes created and deleted, and the advances by which they are collected.
fn creates(step: usize) -> Vec<Call> {
    let create = |n: u8| {
        let name = vec![b'a' + n; 8];
        Call::Create { account: OWNER, name, k: 4, m: 2, cap: Cap::Unlimited }
    };
    let mut calls: Vec<Call> = (0..8).map(create).collect();
    let first = step as u32 * 8 + 1;
    calls.extend((first..first + 8).map(|volume| Call::Delete { account: OWNER, volume }));
    let day = step as u64 * 2;
    calls.extend([1, 2].map(|n| Call::Advance { block: (day + n) * EPOCH }));
    calls
}

fn grants(step: usize) -> Vec<Call> {
    let token = step as u32 + 9;
    vec![
        Call::Grant { account: OWNER, volume: 1, scope: all() },
        Call::Revoke { account: OWNER, token },
    ]
}

/// A chain of 8 made and revoked.
fn attenuates(step: usize) -> Vec<Call> {
    let root = step as u32 * 8 + 9;
    let mut calls = vec![Call::Grant { account: OWNER, volume: 1, scope: all() }];
    calls.extend((root..root + 7).map(|token| Call::Attenuate { token, scope: all() }));
    calls.push(Call::Revoke { account: OWNER, token: root });
    calls
}

/// Eight entries removed, and stored again.
fn removes(_: usize) -> Vec<Call> {
    let paths = || (0..8).map(|n| path(12, n));
    let remove = |path| Call::Remove { account: OWNER, volume: 1, path };
    let mut calls: Vec<Call> = paths().map(remove).collect();
    calls.extend(session(0, 1, paths()));
    calls
}

/// A journal with its name and how many calls or sessions are counted in it.
pub struct Named {
    pub name: String,
    pub journal: Vec<u8>,
    /// The first records, where their time is taken off.
    before: Option<Vec<u8>>,
    counted: usize,
}

fn named(name: &str, (journal, counted): (Vec<u8>, usize)) -> Named {
    let refused = if all_accepted(&journal) { "" } else { ", some refused" };
    Named { name: format!("{name}{refused}"), journal, before: None, counted }
}

/// As `named`, with the time of the setting's calls taken off: with long paths they are most of the journal.
fn after(setting: Setting, name: &str, filled: (Vec<u8>, usize)) -> Named {
    Named { before: Some(made(setting)), ..named(name, filled) }
}

/// Journals of mostly one kind of call.
pub fn kinds() -> Vec<Named> {
    let beat = |relays: usize| {
        move |step: usize| vec![Call::Heartbeat { relay: (step % relays) as u32 + 1 }]
    };
    let block = |by: u64| move |step: usize| vec![Call::Advance { block: (step as u64 + 1) * by }];
    let empty = |_: usize| vec![Call::Open { slot: 0, token: 1 }, Call::Commit { slot: 0 }];
    let gone = |_: usize| vec![Call::Open { slot: 0, token: 1 }, Call::Abandon { slot: 0 }];
    let back = |_: usize| {
        let (account, volume) = (OWNER, 1);
        vec![Call::Delete { account, volume }, Call::Undelete { account, volume }]
    };
    let coins = |_: usize| vec![Call::Deposit { volume: 1, coins: 1 }];
    let staging = |s: Setting| Setting { sessions: 1, ..s };
    let bare = Setting { chains: 0, entries: 0, ..SOME };
    let still = Setting { relays: 0, entries: 0, ..LARGE };
    vec![
        named("10 heartbeats, 10 relays", filled(SOME, beat(10), any)),
        named("10 heartbeats, all tables full", filled(LARGE, beat(32), any)),
        named("0A stages, short paths", filled(staging(SOME), stage(SOME), any)),
        named("0A stages, paths of 128", filled(staging(LONG), stage(LONG), any)),
        named("0E looks, 64 entries, short paths", filled(MANY, look(MANY), any)),
        named("0E looks, 64 entries, paths of 128", filled(LONG, look(LONG), any)),
        named("09 0B open, commit of 0 puts: a session", filled(SOME, empty, is_commit)),
        named("09 0C opens, abandons", filled(SOME, gone, any)),
        named("0A 0B 8 puts, 4+2, 64 entries: a session", filled(MANY, commit(MANY), is_commit)),
        named("0A 0B 8 puts, 16+8, all full: a session", filled(LARGE, commit(LARGE), is_commit)),
        named("0A 0B 8 puts, paths of 128: a session", filled(LONG, commit(LONG), is_commit)),
        named("02 04 creates, deletes, collected", filled(EMPTY, creates, any)),
        named("03 deposits", filled(SOME, coins, any)),
        named("04 05 deletes, undeletes", filled(bare, back, any)),
        named("06 08 grants, revokes", filled(SOME, grants, any)),
        named("06 07 08 chains of 8 made, revoked", filled(SOME, attenuates, any)),
        named("0B 0D 8 removes, 8 puts", filled(SOME, removes, any)),
        named("0F registers, and all leave", filled(EMPTY, registers, any)),
        named("01 advances by 1 block, 8 volumes", filled(still, block(1), any)),
        named("01 advances by an epoch, 64 entries", filled(LARGE, block(EPOCH), any)),
    ]
}

/// Journals of mostly one kind of call with paths of 512 bytes, which need version 02.
pub fn longest_paths() -> Vec<Named> {
    let staging = Setting { sessions: 1, ..LONGEST };
    let stages = filled(staging, stage(LONGEST), any);
    let looks = filled(LONGEST, look(LONGEST), any);
    let commits = filled(LONGEST, commit(LONGEST), is_commit);
    vec![
        after(staging, "0A stages, paths of 512", stages),
        after(LONGEST, "0E looks, 64 entries, paths of 512", looks),
        after(LONGEST, "0A 0B 8 puts, paths of 512: a session", commits),
    ]
}

/// Mixed journals of exactly 65,536 bytes, and one that is a little shorter.
///
/// The first eight are of version 01 and were made when a path had at most 128 bytes; they stay the same from one library
/// to the next. Some of their calls have a longer path, which was answered 1 then. In seed 15 one of them is a grant near
/// the start that is accepted now, so that the calls after it have other answers; so it is run without such calls too,
/// and then does the same work by either limit. The last four are of version 02, as the comparison runs them.
pub fn mixed() -> Vec<Named> {
    let named = |name: String, journal: Vec<u8>| {
        let counted = read_journal(&journal).0.len();
        Named { name, journal, before: None, counted }
    };
    let same = |seed: u64| {
        let journal = journal_of(seed, Texts::UpTo128);
        named(format!("mixed, {} bytes, seed {seed}", journal.len()), journal)
    };
    let version_02 = |seed: u64| {
        let journal = journal_of(seed, Texts::Of(Version::Two));
        named(format!("mixed, version 02, {} bytes, seed {seed}", journal.len()), journal)
    };
    let mut mixed: Vec<Named> = (7..64).step_by(8).map(same).collect();
    let shorter = up_to_128(&journal_of(15, Texts::UpTo128));
    mixed.push(named("mixed, seed 15, no path above 128".to_string(), shorter));
    mixed.extend((7..32).step_by(8).map(version_02));
    mixed
}

/// A journal of version 01 without the calls that have a path or prefix above 128 bytes.
fn up_to_128(journal: &[u8]) -> Vec<u8> {
    let is_short = |call: &Call| call.path_or_prefix().is_none_or(|path| path.len() <= 128);
    let calls: Vec<Call> = read_journal(journal).0.into_iter().filter(is_short).collect();
    // The calls were read from a journal of the same version.
    write_journal(Version::One, &calls).unwrap()
}

/// The same kind of journal at a quarter, a half and the whole of the longest.
fn growth(rounds: usize) {
    let beats = filled(SOME, |step| vec![Call::Heartbeat { relay: (step % 10) as u32 + 1 }], any).0;
    let mixed = journal_of(7, Texts::UpTo128);
    for (name, journal) in [("heartbeats", &beats), ("mixed, seed 7", &mixed)] {
        let records = model::random::records(journal);
        for parts in [4, 2, 1] {
            let counted = records.len() / parts;
            let front = &journal[..records[counted - 1].end];
            let name = format!("{name}, the first {counted} calls");
            line(&name, counted, replayed(front, rounds));
        }
    }
}

fn heading(title: &str) {
    println!("\n{title}");
    println!("{:<44} {:>7} {:>10} {:>10} {:>8}", "", "count", "library µs", "model µs", "ratio");
}

pub fn run(rounds: usize) {
    heading("Replay of journals of mostly one kind of call, µs for each");
    kinds().iter().for_each(|n| show(n, rounds));
    heading("The same in version 02, what comes before these calls taken off, µs for each");
    longest_paths().iter().for_each(|n| show(n, rounds));
    heading("Replay of mixed journals, µs for each call");
    mixed().iter().for_each(|n| show(n, rounds));
    heading("Replay of longer and longer journals, µs for each call");
    growth(rounds);
}

/// Replays one journal so many times with one of the two, so that its instructions can be counted.
pub fn once(journal: &[u8], by_library: bool, times: usize) {
    let mut out = vec![0; pailorchard::replay_room(journal.len())];
    for _ in 0..times {
        if by_library {
            let _ = black_box(pailorchard::replay_into(black_box(journal), &mut out));
        } else {
            black_box(journal::replay(black_box(journal)));
        }
    }
}
