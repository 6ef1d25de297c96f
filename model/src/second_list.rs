//! Demand 3: a list of calls, and a second list without the sessions that are not committed.
//!
//! A session is an accepted open and its slot's accepted stages after it, up to that slot's
//! next accepted commit or abandon, if any. Only calls and answers decide this. Calls of other
//! kinds are always kept. Three second lists are made, and the claim is checked for each.

use crate::call::{Answer, Call};
use crate::desk::{Desk, Tables, SLOTS};

#[derive(Clone, Copy, Debug, PartialEq, Eq)]
pub enum Form {
    /// Committed sessions in their old places; refused calls of kinds 09 to 0C are dropped.
    InPlace,
    /// Each committed session's calls stand together, where its commit stood;
    /// refused calls of kinds 09 to 0C are dropped.
    Together,
    /// As in place, and refused calls of kinds 09 to 0C are kept too, but for those
    /// on a slot while it has a session that is not committed.
    WithRefused,
}

pub const FORMS: [Form; 3] = [Form::InPlace, Form::Together, Form::WithRefused];

/// The places of a committed session's accepted calls, the commit last.
type Committed = Vec<usize>;

/// For each call, whether a session that is not committed has its slot then.
struct Sessions {
    committed: Vec<Committed>,
    shadowed: Vec<bool>,
}

/// One slot's session while the list is read.
#[derive(Clone, Default)]
struct Running {
    accepted: Vec<usize>,
    refused: Vec<usize>,
}

fn sessions(calls: &[Call], answers: &[Answer]) -> Sessions {
    let mut slots: Vec<Option<Running>> = vec![None; SLOTS];
    let mut found = Sessions { committed: Vec::new(), shadowed: vec![false; calls.len()] };
    for (place, call) in calls.iter().enumerate() {
        let slot = call.slot().map(usize::from).filter(|s| *s < SLOTS);
        if let Some(slot) = slot {
            step(&mut found, &mut slots[slot], place, call, answers[place].is_ok());
        }
    }
    slots.iter().flatten().for_each(|unfinished| shadow(&mut found, unfinished));
    found
}

fn shadow(found: &mut Sessions, running: &Running) {
    for place in &running.refused {
        found.shadowed[*place] = true;
    }
}

fn step(found: &mut Sessions, slot: &mut Option<Running>, place: usize, call: &Call, ok: bool) {
    match (call, ok) {
        (Call::Open { .. }, true) => *slot = Some(Running::default()),
        (_, false) => slot.iter_mut().for_each(|running| running.refused.push(place)),
        _ => {}
    }
    if ok {
        slot.iter_mut().for_each(|running| running.accepted.push(place));
    }
    match (call, ok) {
        (Call::Commit { .. }, true) => found.committed.extend(slot.take().map(|r| r.accepted)),
        (Call::Abandon { .. }, true) => slot.take().iter().for_each(|r| shadow(found, r)),
        _ => {}
    }
}

/// The places of the first list's calls, in the order of the second list.
pub fn second_list(calls: &[Call], answers: &[Answer], form: Form) -> Vec<usize> {
    let found = sessions(calls, answers);
    let others = (0..calls.len()).filter(|i| calls[*i].slot().is_none());
    let with_commit = |i: usize| found.committed.iter().find(|c| c.last() == Some(&i));
    match form {
        Form::Together => (0..calls.len())
            .flat_map(|i| match (calls[i].slot(), with_commit(i)) {
                (None, _) => vec![i],
                (_, Some(session)) => session.clone(),
                _ => vec![],
            })
            .collect(),
        Form::InPlace => sorted(others.chain(found.committed.iter().flatten().copied())),
        Form::WithRefused => {
            let is_kept = |i: &usize| {
                calls[*i].slot().is_some() && answers[*i].is_err() && !found.shadowed[*i]
            };
            let refused = (0..calls.len()).filter(is_kept);
            sorted(others.chain(refused).chain(found.committed.iter().flatten().copied()))
        }
    }
}

fn sorted(places: impl Iterator<Item = usize>) -> Vec<usize> {
    let mut places: Vec<usize> = places.collect();
    places.sort_unstable();
    places
}

/// Runs a list on a fresh desk.
pub fn run(calls: &[Call], rate: u16) -> (Vec<Answer>, Tables) {
    let mut desk = Desk::fresh(rate);
    let answers = calls.iter().map(|call| desk.run(call)).collect();
    (answers, desk.tables)
}

/// Demand 3 for one list: kept calls answer the same and the tables end the same.
/// Gives how many calls were dropped.
pub fn holds(calls: &[Call], rate: u16, form: Form) -> Result<usize, String> {
    let (answers, tables) = run(calls, rate);
    let places = second_list(calls, &answers, form);
    let second: Vec<Call> = places.iter().map(|i| calls[*i].clone()).collect();
    let (second_answers, second_tables) = run(&second, rate);
    let differs = |p: &(usize, &usize)| second_answers[p.0] != answers[*p.1];
    if let Some((at, place)) = places.iter().enumerate().find(differs) {
        return Err(format!(
            "{form:?}: call {place} {:?} answers {:?}, then {:?}",
            calls[*place], answers[*place], second_answers[at]
        ));
    }
    if tables != second_tables {
        return Err(format!("{form:?}: the tables differ"));
    }
    Ok(calls.len() - places.len())
}
