//! Counts what calls reach: which answers each kind gave, and what happened to the desk.

use crate::call::{number, value, Answer, Call};
use crate::check::Watched;
use crate::desk::*;
use crate::journal::Version;
use crate::random::{history, rate_for, Texts};
use crate::refusal::{BAD, QUOTA};
use crate::second_list::{holds, FORMS};
use std::collections::BTreeMap;

/// What the calls reached.
#[derive(Clone, Default)]
pub struct Survey {
    pub histories: u64,
    pub calls: u64,
    /// How often each kind gave each answer.
    pub answers: BTreeMap<(u8, u32), u64>,
    /// How often each event of EVENTS happened.
    pub events: BTreeMap<&'static str, u64>,
    /// Calls left out of the second lists of demand 3, by form.
    pub dropped: [u64; 3],
}

/// Answers that each kind can give on a desk reached by a journal, 0 included: all that document 01 lists for it,
/// but for NOT_REACHED.
pub const REACHED: [(u8, &[u32]); 16] = [
    (0x01, &[0, 16]),
    (0x02, &[0, 1, 25, 12]),
    (0x03, &[0, 2, 8, 20]),
    (0x04, &[0, 2, 3, 8]),
    (0x05, &[0, 2, 3, 8]),
    (0x06, &[0, 1, 2, 3, 8, 12]),
    (0x07, &[0, 1, 4, 17, 18, 12]),
    (0x08, &[0, 4, 3]),
    (0x09, &[0, 1, 19, 4, 5, 6, 8]),
    (0x0A, &[0, 1, 19, 4, 7, 12]),
    (0x0B, &[0, 1, 19, 2, 4, 5, 8, 9, 10, 11, 12, 13, 14]),
    (0x0C, &[0, 1, 19]),
    (0x0D, &[0, 1, 2, 3, 8, 15]),
    (0x0E, &[0, 1, 4, 5, 6, 7, 15]),
    (0x0F, &[0, 1, 12]),
    (0x10, &[0, 26]),
];

/// Answers in document 01's lists that no journal of 65,536 bytes reaches, with the reason.
/// docs/OUTSIDE_CHECKS.md says where each is run on a made desk.
pub const NOT_REACHED: [(u8, u32, &str); 6] = [
    (0x02, 21, "65,535 creates of 40 bytes or more"),
    (0x06, 21, "65,535 tokens, 26 bytes or more for each"),
    (0x07, 21, "65,535 tokens, 26 bytes or more for each"),
    (0x0B, 21, "4,294,967,295 commits or removes"),
    (0x0D, 21, "4,294,967,295 commits or removes"),
    (0x0F, 21, "65,535 registers of 11 bytes"),
];

/// How long a path was at most before version 02 of the journal.
const OLD_LONGEST_PATH: usize = 128;

pub const EVENTS: [&str; 60] = [
    "journal of version 01",
    "journal of version 02",
    "advance below the clock refused",
    "advance past two epoch ends refused",
    "epoch end reached",
    "relay left",
    "relay left while an entry names it",
    "heartbeat of a relay that had left refused",
    "rent paid",
    "volume became GRACE_PERIOD",
    "grace count became 2",
    "volume recovered",
    "volume collected at count 3",
    "DELETED volume paid",
    "DELETED volume collected",
    "deposit in GRACE_PERIOD",
    "delete in GRACE_PERIOD",
    "grant in GRACE_PERIOD",
    "remove in GRACE_PERIOD",
    "look in GRACE_PERIOD",
    "undelete cleared a grace count",
    "delete dropped tokens",
    "revoke dropped descendants",
    "chain of 8 tokens made",
    "commit charged an ancestor",
    "commit charged a chain of 8",
    "commit refused by an ancestor's cap alone",
    "path staged again",
    "path staged again at 8 puts",
    "path of 513 bytes refused",
    "token given with a prefix of 512 bytes",
    "commit of no puts",
    "commit of 8 puts",
    "commit replaced an entry",
    "commit replaced an entry in a full entry table",
    "entry stored with size 0",
    "entry stored with size 2^36",
    "entry stored with a path above 128 bytes",
    "entry stored with a path of 512 bytes",
    "entry stored on 24 relays",
    "entry stored with a relay number before one of a lower row",
    "relay left with no room unused",
    "session kept while its token is gone",
    "session kept while its volume is gone",
    "give-back met a relay that had left",
    "volume row freed",
    "volume row taken again",
    "volume table full",
    "token row freed",
    "token row taken again",
    "token table full",
    "relay row freed",
    "relay row taken again",
    "relay table full",
    "entry row freed",
    "entry row taken again",
    "entry table full",
    "slot freed",
    "slot taken again",
    "all slots taken",
];

/// Which rows of each table are taken, one bit for each.
#[derive(Clone, Copy, Default)]
struct Rows([u64; 5]);

/// How many rows each of these tables has, and the events of its rows.
const TABLES: [(usize, [&str; 3]); 5] = [
    (VOLUMES, ["volume row freed", "volume row taken again", "volume table full"]),
    (TOKENS, ["token row freed", "token row taken again", "token table full"]),
    (RELAYS, ["relay row freed", "relay row taken again", "relay table full"]),
    (ENTRIES, ["entry row freed", "entry row taken again", "entry table full"]),
    (SLOTS, ["slot freed", "slot taken again", "all slots taken"]),
];

fn taken<T>(rows: &[Option<T>]) -> u64 {
    rows.iter().rev().fold(0, |bits, row| bits << 1 | u64::from(row.is_some()))
}

impl Rows {
    fn of(desk: &Desk) -> Rows {
        let t = &desk.tables;
        let rows = [taken(&t.volumes), taken(&t.tokens), taken(&t.relays), taken(&t.entries)];
        Rows([rows[0], rows[1], rows[2], rows[3], taken(&desk.sessions)])
    }

    fn entries_full(&self) -> bool {
        self.0[3] == u64::MAX
    }
}

/// A desk run call by call, with what happens to it counted.
pub struct Observed {
    pub desk: Desk,
    rows: Rows,
    /// Rows that were freed at some time.
    freed: Rows,
}

impl Observed {
    pub fn fresh(rate: u16) -> Observed {
        Observed { desk: Desk::fresh(rate), rows: Rows::default(), freed: Rows::default() }
    }

    pub fn run(&mut self, call: &Call, survey: &mut Survey) -> Answer {
        // Only these calls change entries and volumes in ways that the rows alone do not show.
        let whole = matches!(call.kind(), 0x01 | 0x0B | 0x0D);
        let before = whole.then(|| self.desk.clone());
        let event = event_before(call, &self.desk);
        let answer = self.desk.run(call);
        survey.calls += 1;
        *survey.answers.entry((call.kind(), number(&answer))).or_default() += 1;
        match answer {
            Ok(_) => {
                event.iter().for_each(|event| survey.count(event, 1));
                self.accepted(call, &answer, before.as_ref(), survey);
            }
            Err(number) => survey.note_refused(call, number, &self.desk),
        }
        answer
    }

    fn accepted(
        &mut self,
        call: &Call,
        answer: &Answer,
        before: Option<&Desk>,
        survey: &mut Survey,
    ) {
        let old = std::mem::replace(&mut self.rows, Rows::of(&self.desk));
        let dropped = (old.0[1] & !self.rows.0[1]).count_ones();
        match call {
            Call::Delete { .. } => survey.count("delete dropped tokens", dropped.min(1)),
            Call::Grant { scope, .. } => survey.note_prefix(&scope.prefix),
            Call::Revoke { .. } if dropped > 1 => survey.count("revoke dropped descendants", 1),
            Call::Attenuate { scope, .. } => {
                survey.note_prefix(&scope.prefix);
                let chain = self.desk.tables.chain(value(answer) as u32);
                survey.count("chain of 8 tokens made", u32::from(chain.len() == CHAIN));
            }
            _ => {}
        }
        if let Some(before) = before {
            survey.note_change(call, before, &self.desk, old.entries_full());
        }
        self.note_rows(old, survey);
    }

    fn note_rows(&mut self, old: Rows, survey: &mut Survey) {
        for (table, (rows, [freed, again, full])) in TABLES.iter().enumerate() {
            let (before, now) = (old.0[table], self.rows.0[table]);
            if before == now {
                continue;
            }
            survey.count(freed, (before & !now).count_ones());
            survey.count(again, (now & !before & self.freed.0[table]).count_ones());
            survey.count(full, u32::from(now.count_ones() as usize == *rows));
            self.freed.0[table] |= before & !now;
        }
        let sessions = self.desk.sessions.iter().flatten();
        let gone =
            |s: &Session| (self.desk.tables.token(s.token), self.desk.tables.volume(s.volume));
        for (token, volume) in sessions.map(gone) {
            survey.count("session kept while its token is gone", u32::from(token.is_none()));
            survey.count("session kept while its volume is gone", u32::from(volume.is_none()));
        }
    }
}

impl Survey {
    /// Runs one history with the checks of `Watched` and demand 3, and counts what it reaches.
    pub fn add(&mut self, seed: u64, most: usize) -> Result<(), String> {
        let (rate, texts) = (rate_for(seed), Texts::for_seed(seed));
        let calls = history(seed, rate, most, texts);
        self.note_version(texts.version());
        let (mut watched, mut observed) = (Watched::fresh(rate), Observed::fresh(rate));
        for call in &calls {
            let answer = watched.run(call).map_err(|fault| format!("seed {seed}: {fault}"))?;
            if answer != observed.run(call, self) {
                return Err(format!("seed {seed}: {call:?} answers differently"));
            }
        }
        self.histories += 1;
        for (dropped, form) in self.dropped.iter_mut().zip(FORMS) {
            *dropped += holds(&calls, rate, form).map_err(|f| format!("seed {seed}: {f}"))? as u64;
        }
        Ok(())
    }

    fn count(&mut self, event: &'static str, times: u32) {
        if times > 0 {
            *self.events.entry(event).or_default() += u64::from(times);
        }
    }

    /// The version of a journal, or of the journal that a history is made for.
    pub fn note_version(&mut self, version: Version) {
        let event = match version {
            Version::One => "journal of version 01",
            Version::Two => "journal of version 02",
        };
        self.count(event, 1);
    }

    fn note_prefix(&mut self, prefix: &[u8]) {
        let longest = prefix.len() == LONGEST_PATH;
        self.count("token given with a prefix of 512 bytes", u32::from(longest));
    }

    fn note_refused(&mut self, call: &Call, number: u32, desk: &Desk) {
        let tables = &desk.tables;
        match call {
            Call::Advance { block } if *block < tables.clock => {
                self.count("advance below the clock refused", 1);
            }
            Call::Advance { block } if *block <= MOST_BLOCK => {
                self.count("advance past two epoch ends refused", 1);
            }
            Call::Heartbeat { relay } if (1..=tables.last_relay).contains(relay) => {
                self.count("heartbeat of a relay that had left refused", 1);
            }
            Call::Commit { slot } if number == QUOTA => {
                let session = desk.sessions[usize::from(*slot)].as_ref();
                let token = session.and_then(|s| tables.token(s.token));
                let staged = session.map_or(0, |s| s.puts.iter().map(|p| u128::from(p.size)).sum());
                let passes =
                    token.is_some_and(|t| t.scope.cap.is_passed_by(u128::from(t.used) + staged));
                self.count("commit refused by an ancestor's cap alone", u32::from(!passes));
            }
            Call::Stage { path, .. } | Call::Remove { path, .. } | Call::Look { path, .. }
                if number == BAD && path.len() == LONGEST_PATH + 1 =>
            {
                self.count("path of 513 bytes refused", 1);
            }
            _ => {}
        }
    }

    /// What an accepted advance, commit or remove changed.
    fn note_change(&mut self, call: &Call, before: &Desk, after: &Desk, full: bool) {
        match call {
            Call::Advance { .. } => {
                let ends = after.tables.clock / EPOCH - before.tables.clock / EPOCH;
                self.count("epoch end reached", ends as u32);
                self.note_relays(before, after);
                self.note_volumes(before, after);
            }
            Call::Commit { slot } => self.note_commit(usize::from(*slot), before, after, full),
            _ => {}
        }
        let gone = before.tables.entries.iter().flatten().filter(|e| {
            let there = after.tables.entry(e.volume, &e.path);
            there.is_none_or(|now| now.placement != e.placement)
        });
        let relays = gone.flat_map(|e| &e.placement).filter(|n| after.tables.relay(**n).is_none());
        self.count("give-back met a relay that had left", relays.count() as u32);
    }

    fn note_relays(&mut self, before: &Desk, after: &Desk) {
        let rows = before.tables.relays.iter().flatten();
        let left: Vec<_> = rows.filter(|r| after.tables.relay(r.number).is_none()).collect();
        self.count("relay left", left.len() as u32);
        let holding = left.iter().filter(|r| r.held > 0).count();
        self.count("relay left while an entry names it", holding as u32);
    }

    fn note_volumes(&mut self, before: &Desk, after: &Desk) {
        for old in before.tables.volumes.iter().flatten() {
            let new = after.tables.volume(old.number);
            let paid = new.is_some_and(|v| v.balance < old.balance);
            let event = match (old.status, new.map(|v| v.status)) {
                (Status::Grace, None) => "volume collected at count 3",
                (_, None) => "DELETED volume collected",
                (Status::Active, Some(Status::Grace)) => "volume became GRACE_PERIOD",
                (Status::Grace, Some(Status::Active)) => "volume recovered",
                (Status::Grace, Some(_)) if new.is_some_and(|v| v.grace > old.grace) => {
                    "grace count became 2"
                }
                (Status::Deleted(_), _) if paid => "DELETED volume paid",
                (Status::Active, _) if paid => "rent paid",
                _ => continue,
            };
            self.count(event, 1);
        }
    }

    fn note_commit(&mut self, slot: usize, before: &Desk, after: &Desk, full: bool) {
        let Some(session) = before.sessions[slot].as_ref() else {
            return;
        };
        let puts = &session.puts;
        self.count("commit of no puts", u32::from(puts.is_empty()));
        self.count("commit of 8 puts", u32::from(puts.len() == PUTS));
        let is_held = |p: &&Put| before.tables.entry(session.volume, &p.path).is_some();
        let replaced = puts.iter().filter(is_held).count() as u32;
        self.count("commit replaced an entry", replaced);
        self.count("commit replaced an entry in a full entry table", replaced * u32::from(full));
        let chain = before.tables.chain(session.token).len();
        let charged = puts.iter().any(|p| p.size > 0);
        self.count("commit charged an ancestor", u32::from(charged && chain > 1));
        self.count("commit charged a chain of 8", u32::from(charged && chain == CHAIN));
        for put in puts {
            self.count("entry stored with size 0", u32::from(put.size == 0));
            self.count("entry stored with size 2^36", u32::from(put.size == MOST_SIZE));
            let length = put.path.len();
            let above = u32::from(length > OLD_LONGEST_PATH);
            self.count("entry stored with a path above 128 bytes", above);
            let longest = u32::from(length == LONGEST_PATH);
            self.count("entry stored with a path of 512 bytes", longest);
            if let Some(entry) = after.tables.entry(session.volume, &put.path) {
                self.note_placement(&entry.placement, &after.tables);
            }
        }
    }

    fn note_placement(&mut self, placement: &[u32], tables: &Tables) {
        self.count("entry stored on 24 relays", u32::from(placement.len() == 24));
        let relay = |number: &u32| tables.relays.iter().flatten().position(|r| r.number == *number);
        let rows: Vec<_> = placement.iter().map(relay).collect();
        let crossed = placement.windows(2).zip(rows.windows(2));
        let crossed = crossed.filter(|(n, row)| n[0] < n[1] && row[0] > row[1]).count();
        self.count(
            "entry stored with a relay number before one of a lower row",
            u32::from(crossed > 0),
        );
        let relays = placement.iter().filter_map(|n| tables.relay(*n));
        let filled = relays.filter(|r| r.used > 0 && r.used == r.capacity).count();
        self.count("relay left with no room unused", filled as u32);
    }

    /// Adds what another survey counted.
    pub fn merge(&mut self, other: &Survey) {
        self.histories += other.histories;
        self.calls += other.calls;
        for (pair, times) in &other.answers {
            *self.answers.entry(*pair).or_default() += times;
        }
        for (event, times) in &other.events {
            *self.events.entry(event).or_default() += times;
        }
        self.dropped.iter_mut().zip(other.dropped).for_each(|(mine, more)| *mine += more);
    }

    /// Answers and events of the lists above that were not met, and answers met that are not in them.
    pub fn not_met(&self) -> Vec<String> {
        let answers = || REACHED.iter().flat_map(|(kind, all)| all.iter().map(|a| (*kind, *a)));
        let missing = answers().filter(|pair| !self.answers.contains_key(pair));
        let more = self.answers.keys().filter(|pair| !answers().any(|known| known == **pair));
        let events = EVENTS.iter().filter(|e| !self.events.contains_key(*e));
        missing
            .map(|(kind, answer)| format!("kind {kind:02X} answer {answer}"))
            .chain(more.map(|(kind, answer)| format!("kind {kind:02X} answered {answer}")))
            .chain(events.map(|e| e.to_string()))
            .collect()
    }

    /// How often each answer and each event was met.
    pub fn table(&self) -> String {
        let mut lines = String::new();
        for (kind, answers) in REACHED {
            let met = |a: &u32| self.answers.get(&(kind, *a)).copied().unwrap_or(0);
            let counts: Vec<String> = answers.iter().map(|a| format!("{a}: {}", met(a))).collect();
            lines += &format!("kind {kind:02X}   {}\n", counts.join("   "));
        }
        for event in EVENTS {
            let times = self.events.get(event).copied().unwrap_or(0);
            lines += &format!("{times:>12}  {event}\n");
        }
        for (kind, answer, reason) in NOT_REACHED {
            lines += &format!("no journal reaches kind {kind:02X} answer {answer}: {reason}\n");
        }
        lines
    }
}

/// An event that the desk before an accepted call shows.
fn event_before(call: &Call, desk: &Desk) -> Option<&'static str> {
    let tables = &desk.tables;
    let in_grace = |volume: u32| tables.volume(volume).is_some_and(|v| v.status == Status::Grace);
    let (happens, event) = match call {
        Call::Deposit { volume, .. } => (in_grace(*volume), "deposit in GRACE_PERIOD"),
        Call::Delete { volume, .. } => (in_grace(*volume), "delete in GRACE_PERIOD"),
        Call::Grant { volume, .. } => (in_grace(*volume), "grant in GRACE_PERIOD"),
        Call::Remove { volume, .. } => (in_grace(*volume), "remove in GRACE_PERIOD"),
        Call::Look { token, .. } => {
            let volume = tables.token(*token).map_or(0, |t| t.volume);
            (in_grace(volume), "look in GRACE_PERIOD")
        }
        Call::Undelete { volume, .. } => {
            let grace = tables.volume(*volume).map_or(0, |v| v.grace);
            (grace > 0, "undelete cleared a grace count")
        }
        Call::Stage { slot, path, .. } => {
            let session = desk.sessions.get(usize::from(*slot))?.as_ref()?;
            let again = session.puts.iter().any(|p| p.path == *path);
            match session.puts.len() {
                PUTS => (again, "path staged again at 8 puts"),
                _ => (again, "path staged again"),
            }
        }
        _ => return None,
    };
    happens.then_some(event)
}
