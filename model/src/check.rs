//! Self-check of the model: what must hold of every desk reached from a fresh one,
//! and of every call on it.

use crate::call::{Answer, Call};
use crate::desk::*;
use std::collections::{BTreeMap, BTreeSet};

/// A desk run call by call, with what the calls alone say about it.
pub struct Watched {
    pub desk: Desk,
    deposited: u128,
    parents: BTreeMap<u32, u32>,
    used: BTreeMap<u32, u128>,
}

fn require(holds: bool, fault: impl Fn() -> String) -> Result<(), String> {
    if holds {
        Ok(())
    } else {
        Err(fault())
    }
}

impl Watched {
    pub fn fresh(rate: u16) -> Watched {
        Watched {
            desk: Desk::fresh(rate),
            deposited: 0,
            parents: BTreeMap::new(),
            used: BTreeMap::new(),
        }
    }

    /// Runs a call and checks the desk before against the desk after.
    pub fn run(&mut self, call: &Call) -> Result<Answer, String> {
        let before = self.desk.clone();
        let answer = self.desk.run(call);
        let unchanged = self.desk == before;
        require(answer.is_ok() || unchanged, || format!("{call:?} refused and changed the desk"))?;
        if answer.is_ok() {
            self.note(call, &answer, &before);
            self.touched(call, &before)?;
            self.coins()?;
            self.used_from_history()?;
            sound(&self.desk)?;
        }
        Ok(answer)
    }

    /// Keeps the sums that come from the calls.
    fn note(&mut self, call: &Call, answer: &Answer, before: &Desk) {
        match call {
            Call::Deposit { coins, .. } => self.deposited += u128::from(*coins),
            Call::Attenuate { token, .. } => {
                let child = crate::call::value(answer) as u32;
                self.parents.insert(child, *token);
            }
            Call::Commit { slot } => {
                let session = before.sessions[usize::from(*slot)].as_ref().unwrap();
                let staged: u128 = session.puts.iter().map(|p| u128::from(p.size)).sum();
                let mut token = Some(session.token);
                while let Some(number) = token {
                    *self.used.entry(number).or_default() += staged;
                    token = self.parents.get(&number).copied();
                }
            }
            _ => {}
        }
    }

    /// Only the tables and slots a call may write are written.
    fn touched(&self, call: &Call, before: &Desk) -> Result<(), String> {
        let (old, new) = (&before.tables, &self.desk.tables);
        let slots = before.sessions == self.desk.sessions;
        require(call.slot().is_some() || slots, || format!("{call:?} wrote a slot"))?;
        let kind = call.kind();
        let tables = old == new;
        let reads = matches!(kind, 0x09 | 0x0A | 0x0C | 0x0E);
        require(!reads || tables, || format!("{call:?} wrote a table"))?;
        let entries = old.entries == new.entries;
        let writes_entries = matches!(kind, 0x01 | 0x0B | 0x0D);
        require(entries || writes_entries, || format!("{call:?} wrote an entry"))?;
        require(old.clock == new.clock || kind == 0x01, || "clock".into())?;
        let left = before.left == self.desk.left;
        require(left || kind == 0x01, || "coins left outside an advance".into())?;
        match call.slot() {
            Some(slot) => self.other_slots(usize::from(slot), before),
            None => Ok(()),
        }
    }

    fn other_slots(&self, slot: usize, before: &Desk) -> Result<(), String> {
        let same = |s: &usize| before.sessions[*s] == self.desk.sessions[*s];
        let others = (0..SLOTS).filter(|s| *s != slot);
        require(others.clone().all(|s| same(&s)), || "another slot is written".into())
    }

    /// Deposits equal live balances plus rents paid plus balances sent back.
    fn coins(&self) -> Result<(), String> {
        let tables = &self.desk.tables;
        let balances: u128 = tables.volumes.iter().flatten().map(|v| u128::from(v.balance)).sum();
        let left = self.desk.left;
        let sum = balances + left.rents_paid + left.sent_back;
        require(self.deposited == sum, || format!("coins: {} and {sum}", self.deposited))?;
        require(u128::from(tables.deposits) == self.deposited, || "sum of deposits".into())
    }

    /// A token's used bytes are the staged sizes of its family's commits.
    fn used_from_history(&self) -> Result<(), String> {
        let from_calls = |t: &Token| self.used.get(&t.number).copied().unwrap_or(0);
        let mut tokens = self.desk.tables.tokens.iter().flatten();
        require(tokens.all(|t| u128::from(t.used) == from_calls(t)), || "used bytes".into())
    }
}

fn unique<T: Ord>(things: impl Iterator<Item = T>) -> bool {
    let mut seen = BTreeSet::new();
    let mut things = things;
    things.all(|thing| seen.insert(thing))
}

fn given(number: u32, last: u32) -> bool {
    (1..=last).contains(&number)
}

/// The limits and rules that hold of every desk reached from a fresh one.
pub fn sound(desk: &Desk) -> Result<(), String> {
    let t = &desk.tables;
    require(t.volumes.len() == VOLUMES && t.entries.len() == ENTRIES, || "rows".into())?;
    require(t.tokens.len() == TOKENS && t.relays.len() == RELAYS, || "rows".into())?;
    require(desk.sessions.len() == SLOTS, || "slots".into())?;
    let lasts = [t.last_volume, t.last_token, t.last_relay];
    require(lasts.iter().all(|n| *n <= LAST_NUMBER), || "last numbers".into())?;
    require(t.clock <= MOST_BLOCK && t.deposits <= MOST_DEPOSITS, || "clock, deposits".into())?;
    volumes(t)?;
    entries(t)?;
    tokens(t)?;
    relays(t)?;
    sessions(desk)
}

fn volumes(t: &Tables) -> Result<(), String> {
    let all = || t.volumes.iter().flatten();
    require(unique(all().map(|v| v.number)), || "volume number held twice".into())?;
    require(unique(all().map(|v| (v.owner, v.name.clone()))), || "name held twice".into())?;
    for v in all() {
        let fault = || format!("volume {v:?}");
        require(given(v.number, t.last_volume) && is_name(&v.name), fault)?;
        require((2..=16).contains(&v.k) && (1..=8).contains(&v.m), fault)?;
        require(v.cap.is_allowed() && v.balance <= MOST_BALANCE, fault)?;
        require(!v.cap.is_passed_by(t.raw(v.number)), fault)?;
        let grace = match v.status {
            Status::Active => v.grace == 0,
            Status::Grace => v.grace == 1 || v.grace == 2,
            // An overdue volume is collected by the same advance.
            Status::Deleted(at) => v.grace <= 2 && at <= t.clock && t.clock - at < KEPT_DELETED,
        };
        require(grace, fault)?;
    }
    Ok(())
}

fn entries(t: &Tables) -> Result<(), String> {
    let all = || t.entries.iter().flatten();
    require(unique(all().map(|e| (e.volume, e.path.clone()))), || "path held twice".into())?;
    for e in all() {
        let fault = || format!("entry {e:?}");
        let volume = t.volume(e.volume).ok_or_else(fault)?;
        require(is_path(&e.path) && e.size <= MOST_SIZE, fault)?;
        require(e.placement.len() == volume.shards(), fault)?;
        require(unique(e.placement.iter()), fault)?;
        require(e.placement.iter().all(|n| given(*n, t.last_relay)), fault)?;
    }
    Ok(())
}

fn tokens(t: &Tables) -> Result<(), String> {
    let all = || t.tokens.iter().flatten();
    require(unique(all().map(|k| k.number)), || "token number held twice".into())?;
    for k in all() {
        let fault = || format!("token {k:?}");
        let volume = t.volume(k.volume).ok_or_else(fault)?;
        require(given(k.number, t.last_token) && is_scope(&k.scope), fault)?;
        require(k.used <= MOST_USED && !matches!(volume.status, Status::Deleted(_)), fault)?;
        require(!k.scope.cap.is_passed_by(u128::from(k.used)), fault)?;
        require(chain_ends(t, k), fault)?;
        if let Some(parent) = k.parent {
            let parent = t.token(parent).ok_or_else(fault)?;
            require(parent.volume == k.volume, fault)?;
            require(is_narrower(&k.scope, &parent.scope), fault)?;
            require(parent.used >= k.used && parent.number < k.number, fault)?;
        }
    }
    Ok(())
}

/// At most 8 tokens from the token to its root, so no ring.
fn chain_ends(t: &Tables, token: &Token) -> bool {
    let parent = |k: &&Token| k.parent.and_then(|p| t.token(p));
    std::iter::successors(Some(token), parent).take(CHAIN + 1).count() <= CHAIN
}

fn relays(t: &Tables) -> Result<(), String> {
    let all = || t.relays.iter().flatten();
    require(unique(all().map(|r| r.number)), || "relay number held twice".into())?;
    for r in all() {
        let fault = || format!("relay {r:?}");
        require(given(r.number, t.last_relay), fault)?;
        require(r.capacity <= MOST_CAPACITY && r.used <= r.capacity, fault)?;
        require(r.heartbeat <= t.clock && r.health(t.clock) > 0, fault)?;
        let held = t.entries.iter().flatten().filter(|e| e.placement.contains(&r.number));
        let shard = |e: &Entry| shard_size(e.size, t.volume(e.volume).unwrap().k);
        let (count, used) = held.fold((0, 0), |(c, u), e| (c + 1, u + shard(e)));
        require(r.held == count && r.used == used, fault)?;
    }
    Ok(())
}

fn sessions(desk: &Desk) -> Result<(), String> {
    let t = &desk.tables;
    for s in desk.sessions.iter().flatten() {
        let fault = || format!("session {s:?}");
        require(given(s.token, t.last_token) && given(s.volume, t.last_volume), fault)?;
        require(s.puts.len() <= PUTS, fault)?;
        require(unique(s.puts.iter().map(|p| &p.path)), fault)?;
        require(s.puts.iter().all(|p| is_path(&p.path) && p.size <= MOST_SIZE), fault)?;
        let token = t.token(s.token);
        require(token.is_none_or(|k| k.volume == s.volume), fault)?;
        let version = t.volume(s.volume).map(|v| v.version);
        require(version.is_none_or(|v| v >= s.version), fault)?;
    }
    Ok(())
}
