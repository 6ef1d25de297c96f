//! Journals: transcripts and desks of the library and of the model.

use crate::{in_threads, Shared, Wanted};
use model::call::{number, value};
use model::desk::RATE;
use model::journal::{read_journal, version, Version, MOST};
use model::layout::{desk_bytes, place};
use model::random::{damage, journal_for, records, whole_journal, Random, DAMAGES};
use model::survey::{Observed, Survey};
use std::collections::BTreeMap;
use std::fmt::Write;
use std::sync::atomic::Ordering::Relaxed;

/// Whole journals are also compared at this many places, each a journal of the records before it.
const PLACES: usize = 2;
/// How many damaged journals are made of one whole one.
const DAMAGED_OF_ONE: u64 = 20;

/// How many journals had version 01, and how many version 02.
#[derive(Clone, Copy, Default)]
struct Versions([u64; 2]);

impl Versions {
    fn add(&mut self, version: Version, times: u64) {
        self.0[version as usize] += times;
    }

    fn merge(&mut self, other: Versions) {
        self.0.iter_mut().zip(other.0).for_each(|(mine, more)| *mine += more);
    }

    fn shown(self) -> String {
        format!("{} of version 01 and {} of version 02", self.0[0], self.0[1])
    }
}

/// What was compared.
#[derive(Default)]
struct Figures {
    survey: Survey,
    whole: u64,
    /// Whole journals by their version, and the whole ones that damaged journals were made of.
    versions: Versions,
    longest: u64,
    places: u64,
    place_calls: u64,
    damaged: u64,
    damaged_calls: u64,
    damages: BTreeMap<&'static str, u64>,
    /// How damaged journals end: 0 for "end", or the number after "stop".
    ends: BTreeMap<u32, u64>,
}

impl Figures {
    fn merge(&mut self, other: &Figures) {
        self.survey.merge(&other.survey);
        self.whole += other.whole;
        self.versions.merge(other.versions);
        self.longest += other.longest;
        self.places += other.places;
        self.place_calls += other.place_calls;
        self.damaged += other.damaged;
        self.damaged_calls += other.damaged_calls;
        for (name, times) in &other.damages {
            *self.damages.entry(name).or_default() += times;
        }
        for (number, times) in &other.ends {
            *self.ends.entry(*number).or_default() += times;
        }
    }
}

/// The library's answers, in buffers that are used again.
struct Library {
    transcript: Vec<u8>,
    desk: Vec<u8>,
}

/// What the model says of a journal.
struct Model {
    transcript: String,
    desk: Vec<u8>,
    calls: u64,
    fault: Option<u32>,
    /// After so many records: the transcript's length before its last line, and the desk.
    at_places: Vec<(usize, usize, Vec<u8>)>,
}

/// Runs a journal on the model; `places` are counts of records, in order.
fn model_of(journal: &[u8], places: &[usize], survey: &mut Survey) -> Model {
    let (calls, fault) = read_journal(journal);
    let mut observed = Observed::fresh(RATE);
    let mut transcript = String::from("desk 1\n");
    let mut at_places = Vec::new();
    for (done, call) in calls.iter().enumerate() {
        if places.contains(&done) {
            at_places.push((done, transcript.len(), desk_bytes(&observed.desk)));
        }
        let answer = observed.run(call, survey);
        // Writing to a string cannot fail.
        let _ = writeln!(transcript, "{} {} {}", done + 1, number(&answer), value(&answer));
    }
    let _ = match fault {
        Some(fault) => writeln!(transcript, "stop {} {fault}", calls.len()),
        None => writeln!(transcript, "end {}", calls.len()),
    };
    let desk = desk_bytes(&observed.desk);
    Model { transcript, desk, calls: calls.len() as u64, fault, at_places }
}

/// The first line that differs, or the first byte of the desk, in words.
fn difference(transcript: (&[u8], &[u8]), desk: (&[u8], &[u8])) -> Option<String> {
    if transcript.0 != transcript.1 {
        let lines = |t| String::from_utf8_lossy(t).lines().map(String::from).collect::<Vec<_>>();
        let (model, library) = (lines(transcript.0), lines(transcript.1));
        let same = model.iter().zip(&library).take_while(|(one, other)| one == other).count();
        let (model, library) = (model.get(same), library.get(same));
        return Some(format!("line {}: model {model:?}, library {library:?}", same + 1));
    }
    if desk.0 != desk.1 {
        let same = desk.0.iter().zip(desk.1).take_while(|(one, other)| one == other).count();
        return Some(format!("desk, {}", place(same)));
    }
    None
}

impl Library {
    fn new() -> Library {
        let transcript = vec![0; pailorchard::replay_room(MOST)];
        Library { transcript, desk: vec![0; pailorchard::desk_room()] }
    }

    /// Compares the library's answer for a journal with the model's.
    fn same(&mut self, journal: &[u8], transcript: &[u8], desk: &[u8]) -> Result<(), String> {
        let after = pailorchard::desk_after_into(journal, &mut self.transcript, &mut self.desk);
        let written = after.map_err(|refusal| refusal.to_string())?;
        let found = difference((transcript, &self.transcript[..written]), (desk, &self.desk));
        found.map_or(Ok(()), Err)
    }

    /// Compares the transcript alone, by the function that gives no desk.
    fn same_replay(&mut self, journal: &[u8], transcript: &[u8]) -> Result<(), String> {
        let replay = pailorchard::replay_into(journal, &mut self.transcript);
        let written = replay.map_err(|refusal| refusal.to_string())?;
        let found = difference((transcript, &self.transcript[..written]), (&[], &[]));
        found.map_or(Ok(()), |at| Err(format!("replay, {at}")))
    }
}

/// A whole journal, and the journals of its first records.
fn whole(library: &mut Library, figures: &mut Figures, seed: u64) -> Result<u64, String> {
    let journal = journal_for(seed);
    // Every journal made here has a known version.
    let version = version(&journal).unwrap();
    let found = records(&journal);
    let mut r = Random::new(seed ^ 0x5EED);
    let places: Vec<usize> = (0..PLACES).map(|_| r.index(found.len())).collect();
    let model = model_of(&journal, &places, &mut figures.survey);
    let at = |place: &str, fault: String| format!("difference, seed {seed}, {place}: {fault}");
    let transcript = model.transcript.as_bytes();
    library.same(&journal, transcript, &model.desk).map_err(|f| at("whole", f))?;
    if seed.is_multiple_of(4) {
        library.same_replay(&journal, transcript).map_err(|f| at("whole", f))?;
    }
    for (records, length, desk) in &model.at_places {
        let front = &journal[..found[*records].start];
        let transcript = [&transcript[..*length], format!("end {records}\n").as_bytes()].concat();
        let place = format!("first {records} records");
        library.same(front, &transcript, desk).map_err(|f| at(&place, f))?;
        figures.places += 1;
        figures.place_calls += *records as u64;
    }
    figures.survey.note_version(version);
    figures.versions.add(version, 1);
    figures.whole += 1;
    figures.longest += u64::from(journal.len() == MOST);
    Ok(model.calls)
}

/// Damaged journals of one short whole one.
fn damaged(library: &mut Library, figures: &mut Figures, seed: u64) -> Result<(), String> {
    let mut r = Random::new(seed ^ 0xDA3A);
    let calls = r.between(2, 60) as usize;
    let whole = whole_journal(seed, calls);
    // Every journal made here has a known version.
    figures.versions.add(version(&whole).unwrap(), DAMAGED_OF_ONE);
    for variant in 0..DAMAGED_OF_ONE {
        let mut journal = whole.clone();
        let times = if r.chance(15) { 2 } else { 1 };
        for _ in 0..times {
            let kind = damage(&mut r, &mut journal);
            *figures.damages.entry(DAMAGES[kind]).or_default() += 1;
        }
        let model = model_of(&journal, &[], &mut Survey::default());
        let transcript = model.transcript.as_bytes();
        library
            .same(&journal, transcript, &model.desk)
            .and_then(|()| match variant {
                0 => library.same_replay(&journal, transcript),
                _ => Ok(()),
            })
            .map_err(|f| format!("difference, damaged seed {seed}, variant {variant}: {f}"))?;
        figures.damaged += 1;
        figures.damaged_calls += model.calls;
        *figures.ends.entry(model.fault.unwrap_or(0)).or_default() += 1;
    }
    Ok(())
}

fn gathered(all: Vec<Figures>) -> Figures {
    let mut figures = Figures::default();
    all.iter().for_each(|one| figures.merge(one));
    figures
}

pub fn compare(wanted: &Wanted) -> Result<Survey, String> {
    let shared = Shared::default();
    let all = in_threads(wanted.threads, &shared, || {
        let (mut library, mut figures) = (Library::new(), Figures::default());
        while shared.calls.load(Relaxed) < wanted.calls {
            let Some(next) = shared.take() else { break };
            let calls = whole(&mut library, &mut figures, wanted.seed + next)?;
            shared.calls.fetch_add(calls, Relaxed);
        }
        Ok(figures)
    })?;
    let found = gathered(all);
    let last = wanted.seed + found.whole.max(1) - 1;
    println!(
        "whole journals: {} of {} calls, seeds {} to {last}, {} of them exactly {MOST} bytes",
        found.whole, found.survey.calls, wanted.seed, found.longest
    );
    println!("  {}", found.versions.shown());
    println!(
        "  and the first records of them: {} journals, {} calls",
        found.places, found.place_calls
    );
    let shared = Shared::default();
    let all = in_threads(wanted.threads, &shared, || {
        let (mut library, mut figures) = (Library::new(), Figures::default());
        while let Some(next) = shared.take().filter(|n| n * DAMAGED_OF_ONE < wanted.damaged) {
            damaged(&mut library, &mut figures, wanted.seed + next)?;
        }
        Ok(figures)
    })?;
    let figures = gathered(all);
    let last = wanted.seed + (figures.damaged / DAMAGED_OF_ONE).max(1) - 1;
    println!(
        "damaged journals: {} of {} calls before the damage, seeds {} to {last}, {DAMAGED_OF_ONE} of each",
        figures.damaged, figures.damaged_calls, wanted.seed
    );
    println!("  made of whole ones, {}", figures.versions.shown());
    for (number, times) in &figures.ends {
        match number {
            0 => println!("{times:>12}  end as whole journals"),
            _ => println!("{times:>12}  stop with {number}"),
        }
    }
    figures.damages.iter().for_each(|(name, times)| println!("{times:>12}  {name}"));
    let met = |name: &&str| figures.damages.contains_key(name);
    match DAMAGES.iter().find(|name| !met(name)) {
        Some(never) if wanted.damaged > 0 => Err(format!("never met: {never}")),
        _ => Ok(found.survey),
    }
}
