//! The desk: volumes, entries, tokens, relays, four session slots and a clock.
//!
//! Each table is a vector of rows of fixed length; `None` is a free row.
//! Relays are kept in the desk, in 32 rows.

use crate::amount::Cap;
use crate::call::{Answer, Bytes32, Call, Given, Scope};
use crate::refusal::*;

pub const VOLUMES: usize = 8;
pub const ENTRIES: usize = 64;
pub const TOKENS: usize = 32;
pub const RELAYS: usize = 32;
pub const SLOTS: usize = 4;
pub const PUTS: usize = 8;
pub const CHAIN: usize = 8;

/// The longest path, and the longest prefix with its slash.
pub const LONGEST_PATH: usize = 512;
pub const LONGEST_NAME: usize = 64;

pub const MOST_SIZE: u64 = 1 << 36;
pub const MOST_CAPACITY: u64 = 1 << 42;
pub const MOST_USED: u64 = 1 << 60;
pub const MOST_BLOCK: u64 = 1 << 40;
pub const MOST_BALANCE: u64 = 1_000_000_000_000_000;
pub const MOST_DEPOSITS: u64 = 1_000_000_000_000_000_000;
pub const LAST_NUMBER: u32 = 65_535;
pub const EPOCH: u64 = 3_600;
pub const KEPT_DELETED: u64 = 7_200;
pub const GRACE_END: u8 = 3;
/// The rate of the program.
pub const RATE: u16 = 100;

#[derive(Clone, Copy, Debug, PartialEq, Eq)]
pub enum Status {
    Active,
    Grace,
    /// With the block of the delete.
    Deleted(u64),
}

#[derive(Clone, Debug, PartialEq, Eq)]
pub struct Volume {
    pub number: u32,
    pub owner: Bytes32,
    pub name: Vec<u8>,
    pub k: u8,
    pub m: u8,
    pub cap: Cap,
    pub status: Status,
    /// Epoch ends not paid in a row.
    pub grace: u8,
    pub balance: u64,
    pub version: u32,
}

impl Volume {
    /// K+M, the number of shards of an object.
    pub fn shards(&self) -> usize {
        usize::from(self.k) + usize::from(self.m)
    }
}

#[derive(Clone, Debug, PartialEq, Eq)]
pub struct Entry {
    pub volume: u32,
    pub path: Vec<u8>,
    pub size: u64,
    pub hash: Bytes32,
    /// Relay numbers by shard index.
    pub placement: Vec<u32>,
}

#[derive(Clone, Debug, PartialEq, Eq)]
pub struct Token {
    pub number: u32,
    pub volume: u32,
    pub parent: Option<u32>,
    pub scope: Scope,
    pub used: u64,
}

#[derive(Clone, Debug, PartialEq, Eq)]
pub struct Relay {
    pub number: u32,
    pub capacity: u64,
    pub used: u64,
    pub held: u32,
    pub heartbeat: u64,
}

impl Relay {
    /// 100 less the blocks since the last heartbeat, at least 0.
    pub fn health(&self, clock: u64) -> u64 {
        100u64.saturating_sub(clock - self.heartbeat)
    }
}

#[derive(Clone, Debug, PartialEq, Eq)]
pub struct Put {
    pub path: Vec<u8>,
    pub size: u64,
    pub hash: Bytes32,
}

#[derive(Clone, Debug, PartialEq, Eq)]
pub struct Session {
    pub token: u32,
    pub volume: u32,
    pub version: u32,
    pub puts: Vec<Put>,
}

/// All but the session slots.
#[derive(Clone, Debug, PartialEq, Eq)]
pub struct Tables {
    pub rate: u16,
    pub clock: u64,
    pub deposits: u64,
    pub last_volume: u32,
    pub last_token: u32,
    pub last_relay: u32,
    pub volumes: Vec<Option<Volume>>,
    pub entries: Vec<Option<Entry>>,
    pub tokens: Vec<Option<Token>>,
    pub relays: Vec<Option<Relay>>,
}

/// Coins that left the desk. They are in no row and no answer.
#[derive(Clone, Copy, Debug, Default, PartialEq, Eq)]
pub struct Left {
    pub rents_paid: u128,
    pub sent_back: u128,
}

#[derive(Clone, Debug, PartialEq, Eq)]
pub struct Desk {
    pub tables: Tables,
    pub sessions: Vec<Option<Session>>,
    pub left: Left,
}

/// 1 to 64 bytes of a-z A-Z 0-9 _ - .
pub fn is_name(name: &[u8]) -> bool {
    (1..=LONGEST_NAME).contains(&name.len())
        && name.iter().all(|b| b.is_ascii_alphanumeric() || b"_-.".contains(b))
}

/// 1 to 512 bytes in 0x21..0x7E whose parts between "/" are not empty, "." or "..".
pub fn is_path(path: &[u8]) -> bool {
    (1..=LONGEST_PATH).contains(&path.len())
        && path.iter().all(|b| (0x21..=0x7E).contains(b))
        && path.split(|b| *b == b'/').all(|part| !part.is_empty() && part != b"." && part != b"..")
}

/// Empty, or a path followed by "/", at most 512 bytes in all.
pub fn is_prefix(prefix: &[u8]) -> bool {
    match prefix.split_last() {
        None => true,
        Some((last, path)) => prefix.len() <= LONGEST_PATH && *last == b'/' && is_path(path),
    }
}

/// The scope's own rules, which number 1 tests.
pub fn is_scope(scope: &Scope) -> bool {
    is_prefix(&scope.prefix)
        && scope.mode <= 2
        && scope.cap.is_allowed()
        && scope.from <= scope.until
}

fn reads(mode: u8) -> bool {
    mode != 1
}

fn writes(mode: u8) -> bool {
    mode != 0
}

/// The child's prefix, rights, cap and window lie within the parent's.
pub fn is_narrower(child: &Scope, parent: &Scope) -> bool {
    child.prefix.starts_with(&parent.prefix)
        && (!reads(child.mode) || reads(parent.mode))
        && (!writes(child.mode) || writes(parent.mode))
        && child.cap.is_within(parent.cap)
        && parent.from <= child.from
        && child.until <= parent.until
}

/// ceil(size / K).
pub fn shard_size(size: u64, k: u8) -> u64 {
    size.div_ceil(u64::from(k))
}

/// raw * (K+M) / K, rounded up.
pub fn effective(raw: u128, k: u8, m: u8) -> u128 {
    (raw * (u128::from(k) + u128::from(m))).div_ceil(u128::from(k))
}

/// ceil(effective * rate / 2^20) coins for one epoch.
pub fn rent(raw: u128, k: u8, m: u8, rate: u16) -> u128 {
    (effective(raw, k, m) * u128::from(rate)).div_ceil(1 << 20)
}

/// Fewest shards held first, then lowest number; shard 0 gets the first.
pub fn choose(eligible: &[&Relay], wanted: usize) -> Option<Vec<u32>> {
    if eligible.len() < wanted {
        return None;
    }
    let mut order: Vec<(u32, u32)> = eligible.iter().map(|r| (r.held, r.number)).collect();
    order.sort_unstable();
    Some(order[..wanted].iter().map(|o| o.1).collect())
}

/// The number after the last one given.
fn next_number(last: u32) -> Result<u32, u32> {
    if last >= LAST_NUMBER {
        return Err(SPENT);
    }
    Ok(last + 1)
}

fn free_row<T>(rows: &[Option<T>]) -> Result<usize, u32> {
    rows.iter().position(|row| row.is_none()).ok_or(ROOM)
}

fn require(holds: bool, number: u32) -> Result<(), u32> {
    if holds {
        Ok(())
    } else {
        Err(number)
    }
}

fn free_rows<T>(count: usize) -> Vec<Option<T>> {
    (0..count).map(|_| None).collect()
}

fn plain(value: u64) -> Answer {
    Ok(Given { value, hash: None })
}

impl Tables {
    pub fn fresh(rate: u16) -> Tables {
        Tables {
            rate,
            clock: 0,
            deposits: 0,
            last_volume: 0,
            last_token: 0,
            last_relay: 0,
            volumes: free_rows(VOLUMES),
            entries: free_rows(ENTRIES),
            tokens: free_rows(TOKENS),
            relays: free_rows(RELAYS),
        }
    }

    pub fn volume(&self, number: u32) -> Option<&Volume> {
        self.volumes.iter().flatten().find(|v| v.number == number)
    }

    fn volume_mut(&mut self, number: u32) -> Option<&mut Volume> {
        self.volumes.iter_mut().flatten().find(|v| v.number == number)
    }

    /// For tests that set a desk no short list of calls reaches.
    pub fn volume_mut_for_test(&mut self, number: u32) -> &mut Volume {
        self.volume_mut(number).unwrap()
    }

    /// For tests that set a desk no short list of calls reaches.
    pub fn token_mut_for_test(&mut self, number: u32) -> &mut Token {
        self.token_mut(number).unwrap()
    }

    pub fn token(&self, number: u32) -> Option<&Token> {
        self.tokens.iter().flatten().find(|t| t.number == number)
    }

    fn token_mut(&mut self, number: u32) -> Option<&mut Token> {
        self.tokens.iter_mut().flatten().find(|t| t.number == number)
    }

    pub fn relay(&self, number: u32) -> Option<&Relay> {
        self.relays.iter().flatten().find(|r| r.number == number)
    }

    fn relay_mut(&mut self, number: u32) -> Option<&mut Relay> {
        self.relays.iter_mut().flatten().find(|r| r.number == number)
    }

    pub fn entry(&self, volume: u32, path: &[u8]) -> Option<&Entry> {
        let row = self.entry_row(volume, path)?;
        self.entries[row].as_ref()
    }

    fn entry_row(&self, volume: u32, path: &[u8]) -> Option<usize> {
        let is_it = |e: &Entry| e.volume == volume && e.path == path;
        self.entries.iter().position(|e| e.as_ref().is_some_and(is_it))
    }

    /// The raw bytes of a volume.
    pub fn raw(&self, volume: u32) -> u128 {
        let sizes = self.entries.iter().flatten().filter(|e| e.volume == volume);
        sizes.map(|e| u128::from(e.size)).sum()
    }

    /// One epoch's rent of a volume as it stands.
    pub fn volume_rent(&self, volume: &Volume) -> u128 {
        rent(self.raw(volume.number), volume.k, volume.m, self.rate)
    }

    /// A token and its ancestors, the token first.
    pub fn chain(&self, token: u32) -> Vec<u32> {
        let parent = |t: &u32| self.token(*t).and_then(|t| t.parent);
        std::iter::successors(Some(token), parent).collect()
    }

    /// Gives an object's room and held shards back to the relays still in the table.
    fn give_back(&mut self, entry: &Entry, k: u8) {
        for number in &entry.placement {
            if let Some(relay) = self.relay_mut(*number) {
                relay.used -= shard_size(entry.size, k);
                relay.held -= 1;
            }
        }
    }

    /// Takes an entry out of its row.
    fn take_entry(&mut self, row: usize, k: u8) {
        if let Some(entry) = self.entries[row].take() {
            self.give_back(&entry, k);
        }
    }

    fn drop_tokens_of(&mut self, volume: u32) {
        for row in &mut self.tokens {
            if row.as_ref().is_some_and(|t| t.volume == volume) {
                *row = None;
            }
        }
    }

    /// Entries, tokens and row go; gives the balance that leaves the desk.
    fn collect(&mut self, number: u32) -> u64 {
        let Some(volume) = self.volume(number).cloned() else {
            return 0;
        };
        for row in 0..self.entries.len() {
            if self.entries[row].as_ref().is_some_and(|e| e.volume == number) {
                self.take_entry(row, volume.k);
            }
        }
        self.drop_tokens_of(number);
        self.volumes.retain_row(|v| v.number != number);
        volume.balance
    }

    /// The owner's volume, with checks 2 and 3.
    fn owned(&self, account: &Bytes32, number: u32) -> Result<&Volume, u32> {
        let volume = self.volume(number).ok_or(NO_VOLUME)?;
        require(volume.owner == *account, NOT_OWNER)?;
        Ok(volume)
    }

    /// Places a put on the relays, and charges them for it.
    fn place(&mut self, size: u64, k: u8, wanted: usize) -> Result<Vec<u32>, u32> {
        let shard = shard_size(size, k);
        let clock = self.clock;
        let is_eligible = |r: &&Relay| r.health(clock) >= 50 && r.capacity - r.used >= shard;
        let eligible: Vec<&Relay> = self.relays.iter().flatten().filter(is_eligible).collect();
        let taken = choose(&eligible, wanted).ok_or(NO_PLACE)?;
        for number in &taken {
            let relay = self.relay_mut(*number).unwrap();
            relay.used += shard;
            relay.held += 1;
        }
        Ok(taken)
    }
}

/// Frees the rows that do not satisfy a test, and leaves the others where they are.
trait RetainRow<T> {
    fn retain_row(&mut self, keep: impl Fn(&T) -> bool);
}

impl<T> RetainRow<T> for Vec<Option<T>> {
    fn retain_row(&mut self, keep: impl Fn(&T) -> bool) {
        for row in self.iter_mut() {
            if row.as_ref().is_some_and(|thing| !keep(thing)) {
                *row = None;
            }
        }
    }
}

fn open_or_grace(status: Status) -> bool {
    matches!(status, Status::Active | Status::Grace)
}

impl Desk {
    /// A fresh desk is empty, clock 0.
    pub fn fresh(rate: u16) -> Desk {
        Desk { tables: Tables::fresh(rate), sessions: free_rows(SLOTS), left: Left::default() }
    }

    /// Runs one call. A refusal leaves the desk as before.
    pub fn run(&mut self, call: &Call) -> Answer {
        match call {
            Call::Advance { block } => self.advance(*block),
            Call::Create { account, name, k, m, cap } => self.create(account, name, (*k, *m), *cap),
            Call::Deposit { volume, coins } => self.deposit(*volume, *coins),
            Call::Delete { account, volume } => self.delete(account, *volume),
            Call::Undelete { account, volume } => self.undelete(account, *volume),
            Call::Grant { account, volume, scope } => self.grant(account, *volume, scope),
            Call::Attenuate { token, scope } => self.attenuate(*token, scope),
            Call::Revoke { account, token } => self.revoke(account, *token),
            Call::Open { slot, token } => self.open(*slot, *token),
            Call::Stage { slot, path, size, hash } => self.stage(*slot, path, *size, hash),
            Call::Commit { slot } => self.commit(*slot),
            Call::Abandon { slot } => self.abandon(*slot),
            Call::Remove { account, volume, path } => self.remove(account, *volume, path),
            Call::Look { token, path } => self.look(*token, path),
            Call::Register { capacity } => self.register(*capacity),
            Call::Heartbeat { relay } => self.heartbeat(*relay),
        }
    }

    fn advance(&mut self, block: u64) -> Answer {
        let old = self.tables.clock;
        require(old <= block && block <= MOST_BLOCK, CLOCK)?;
        let ends = block / EPOCH - old / EPOCH;
        require(ends < 2, CLOCK)?;
        self.tables.clock = block;
        self.tables.relays.retain_row(|r| r.health(block) > 0);
        if ends == 1 {
            self.end_epoch();
        }
        self.collect_deleted();
        plain(block)
    }

    /// Every volume pays, or is short.
    fn end_epoch(&mut self) {
        let numbers: Vec<u32> = self.tables.volumes.iter().flatten().map(|v| v.number).collect();
        for number in numbers {
            self.end_epoch_of(number);
        }
    }

    fn end_epoch_of(&mut self, number: u32) {
        let volume = self.tables.volume(number).unwrap();
        let rent = self.tables.volume_rent(volume);
        let volume = self.tables.volume_mut(number).unwrap();
        let balance = u128::from(volume.balance);
        let (paid, collected) = match volume.status {
            Status::Deleted(_) => (rent.min(balance), false),
            _ if balance >= rent => {
                volume.status = Status::Active;
                volume.grace = 0;
                (rent, false)
            }
            _ => {
                volume.status = Status::Grace;
                volume.grace += 1;
                (0, volume.grace == GRACE_END)
            }
        };
        volume.balance -= paid as u64;
        self.left.rents_paid += paid;
        if collected {
            self.left.sent_back += u128::from(self.tables.collect(number));
        }
    }

    /// Each DELETED volume whose delete lies 7,200 blocks or more back is collected.
    fn collect_deleted(&mut self) {
        let clock = self.tables.clock;
        let is_due =
            |v: &&Volume| matches!(v.status, Status::Deleted(at) if clock - at >= KEPT_DELETED);
        let volumes = self.tables.volumes.iter().flatten();
        let due: Vec<u32> = volumes.filter(is_due).map(|v| v.number).collect();
        for number in due {
            self.left.sent_back += u128::from(self.tables.collect(number));
        }
    }

    fn create(&mut self, account: &Bytes32, name: &[u8], (k, m): (u8, u8), cap: Cap) -> Answer {
        let tables = &mut self.tables;
        require(is_name(name), BAD)?;
        require((2..=16).contains(&k) && (1..=8).contains(&m), BAD)?;
        require(cap.is_allowed(), BAD)?;
        let is_same = |v: &Volume| v.owner == *account && v.name == name;
        require(!tables.volumes.iter().flatten().any(is_same), NAME_TAKEN)?;
        let number = next_number(tables.last_volume)?;
        let row = free_row(&tables.volumes)?;
        tables.last_volume = number;
        tables.volumes[row] = Some(Volume {
            number,
            owner: *account,
            name: name.to_vec(),
            k,
            m,
            cap,
            status: Status::Active,
            grace: 0,
            balance: 0,
            version: 0,
        });
        plain(u64::from(number))
    }

    fn deposit(&mut self, number: u32, coins: u64) -> Answer {
        let deposits = u128::from(self.tables.deposits) + u128::from(coins);
        let volume = self.tables.volume_mut(number).ok_or(NO_VOLUME)?;
        require(open_or_grace(volume.status), STATE)?;
        let balance = u128::from(volume.balance) + u128::from(coins);
        require(balance <= u128::from(MOST_BALANCE), TOO_MUCH)?;
        require(deposits <= u128::from(MOST_DEPOSITS), TOO_MUCH)?;
        volume.balance = balance as u64;
        self.tables.deposits = deposits as u64;
        plain(0)
    }

    fn delete(&mut self, account: &Bytes32, number: u32) -> Answer {
        let clock = self.tables.clock;
        let volume = self.tables.owned(account, number)?;
        require(open_or_grace(volume.status), STATE)?;
        self.tables.volume_mut(number).unwrap().status = Status::Deleted(clock);
        self.tables.drop_tokens_of(number);
        plain(0)
    }

    fn undelete(&mut self, account: &Bytes32, number: u32) -> Answer {
        let volume = self.tables.owned(account, number)?;
        require(matches!(volume.status, Status::Deleted(_)), STATE)?;
        let volume = self.tables.volume_mut(number).unwrap();
        volume.status = Status::Active;
        volume.grace = 0;
        plain(0)
    }

    fn grant(&mut self, account: &Bytes32, number: u32, scope: &Scope) -> Answer {
        require(is_scope(scope), BAD)?;
        let volume = self.tables.owned(account, number)?;
        require(open_or_grace(volume.status), STATE)?;
        self.give_token(number, None, scope)
    }

    /// Checks 21 and 12, then the new token.
    fn give_token(&mut self, volume: u32, parent: Option<u32>, scope: &Scope) -> Answer {
        let number = next_number(self.tables.last_token)?;
        let row = free_row(&self.tables.tokens)?;
        self.tables.last_token = number;
        let scope = scope.clone();
        self.tables.tokens[row] = Some(Token { number, volume, parent, scope, used: 0 });
        plain(u64::from(number))
    }

    fn attenuate(&mut self, parent: u32, scope: &Scope) -> Answer {
        require(is_scope(scope), BAD)?;
        let token = self.tables.token(parent).ok_or(NO_TOKEN)?;
        require(is_narrower(scope, &token.scope), WIDENS)?;
        require(self.tables.chain(parent).len() < CHAIN, DEEP)?;
        self.give_token(token.volume, Some(parent), scope)
    }

    fn revoke(&mut self, account: &Bytes32, number: u32) -> Answer {
        let tables = &mut self.tables;
        let token = tables.token(number).ok_or(NO_TOKEN)?;
        let volume = tables.volume(token.volume);
        require(volume.is_some_and(|v| v.owner == *account), NOT_OWNER)?;
        let tokens = tables.tokens.iter().flatten().map(|t| t.number);
        let family: Vec<u32> = tokens.filter(|t| tables.chain(*t).contains(&number)).collect();
        tables.tokens.retain_row(|t| !family.contains(&t.number));
        plain(0)
    }

    /// The row of a slot, with check 1.
    fn slot_row(slot: u8) -> Result<usize, u32> {
        require(usize::from(slot) < SLOTS, BAD)?;
        Ok(usize::from(slot))
    }

    fn in_window(&self, token: &Token) -> bool {
        (token.scope.from..=token.scope.until).contains(&self.tables.clock)
    }

    fn open(&mut self, slot: u8, number: u32) -> Answer {
        let row = Self::slot_row(slot)?;
        require(self.sessions[row].is_none(), SESSION)?;
        let token = self.tables.token(number).ok_or(NO_TOKEN)?;
        require(self.in_window(token), WINDOW)?;
        require(writes(token.scope.mode), MODE)?;
        let volume = self.tables.volume(token.volume).ok_or(NO_VOLUME)?;
        require(volume.status == Status::Active, STATE)?;
        self.sessions[row] = Some(Session {
            token: number,
            volume: volume.number,
            version: volume.version,
            puts: Vec::new(),
        });
        plain(0)
    }

    fn stage(&mut self, slot: u8, path: &[u8], size: u64, hash: &Bytes32) -> Answer {
        let row = Self::slot_row(slot)?;
        require(is_path(path) && size <= MOST_SIZE, BAD)?;
        let session = self.sessions[row].as_mut().ok_or(SESSION)?;
        let token = self.tables.token(session.token).ok_or(NO_TOKEN)?;
        require(path.starts_with(&token.scope.prefix), PREFIX)?;
        let put = Put { path: path.to_vec(), size, hash: *hash };
        match session.puts.iter_mut().find(|p| p.path == path) {
            Some(old) => *old = put,
            None => {
                require(session.puts.len() < PUTS, ROOM)?;
                session.puts.push(put);
            }
        }
        plain(0)
    }

    fn abandon(&mut self, slot: u8) -> Answer {
        let row = Self::slot_row(slot)?;
        require(self.sessions[row].is_some(), SESSION)?;
        self.sessions[row] = None;
        plain(0)
    }

    fn commit(&mut self, slot: u8) -> Answer {
        let row = Self::slot_row(slot)?;
        let session = self.sessions[row].clone().ok_or(SESSION)?;
        self.commit_rights(&session)?;
        self.commit_limits(&session)?;
        let tables = self.stored(&session)?;
        self.tables = tables;
        self.sessions[row] = None;
        plain(u64::from(session.version) + 1)
    }

    /// Checks 2 4 5 8 9 21.
    fn commit_rights(&self, session: &Session) -> Result<(), u32> {
        let volume = self.tables.volume(session.volume).ok_or(NO_VOLUME)?;
        let token = self.tables.token(session.token).ok_or(NO_TOKEN)?;
        require(self.in_window(token), WINDOW)?;
        require(volume.status == Status::Active, STATE)?;
        require(volume.version == session.version, CONFLICT)?;
        require(volume.version < u32::MAX, SPENT)
    }

    /// Checks 10 11 12 13.
    fn commit_limits(&self, session: &Session) -> Result<(), u32> {
        let tables = &self.tables;
        let volume = tables.volume(session.volume).unwrap();
        let staged: u128 = session.puts.iter().map(|p| u128::from(p.size)).sum();
        let passes = |number: &u32| {
            let token = tables.token(*number).unwrap();
            let total = u128::from(token.used) + staged;
            token.scope.cap.is_passed_by(total) || total > u128::from(MOST_USED)
        };
        require(!tables.chain(session.token).iter().any(passes), QUOTA)?;
        let old = |p: &Put| tables.entry(volume.number, &p.path);
        let replaced: Vec<&Entry> = session.puts.iter().filter_map(old).collect();
        let given_up: u128 = replaced.iter().map(|e| u128::from(e.size)).sum();
        let raw = tables.raw(volume.number) - given_up + staged;
        require(!volume.cap.is_passed_by(raw), SIZE)?;
        let held = tables.entries.iter().flatten().count();
        require(held + session.puts.len() - replaced.len() <= ENTRIES, ROOM)?;
        let rent = rent(raw, volume.k, volume.m, tables.rate);
        require(u128::from(volume.balance) >= rent, RENT)
    }

    /// The tables after the commit, or 14.
    fn stored(&self, session: &Session) -> Result<Tables, u32> {
        let mut tables = self.tables.clone();
        let volume = tables.volume_mut(session.volume).unwrap();
        volume.version += 1;
        let (number, k, wanted) = (volume.number, volume.k, volume.shards());
        let mut replaced = Vec::new();
        for put in &session.puts {
            let placement = tables.place(put.size, k, wanted)?;
            let row = match tables.entry_row(number, &put.path) {
                Some(row) => row,
                None => free_row(&tables.entries)?,
            };
            let (path, size, hash) = (put.path.clone(), put.size, put.hash);
            let entry = Entry { volume: number, path, size, hash, placement };
            replaced.extend(tables.entries[row].replace(entry));
        }
        replaced.iter().for_each(|entry| tables.give_back(entry, k));
        let staged: u64 = session.puts.iter().map(|p| p.size).sum();
        for token in tables.chain(session.token) {
            tables.token_mut(token).unwrap().used += staged;
        }
        Ok(tables)
    }

    fn remove(&mut self, account: &Bytes32, number: u32, path: &[u8]) -> Answer {
        require(is_path(path), BAD)?;
        let volume = self.tables.owned(account, number)?;
        require(open_or_grace(volume.status), STATE)?;
        let row = self.tables.entry_row(number, path).ok_or(NO_ENTRY)?;
        require(volume.version < u32::MAX, SPENT)?;
        let (k, version) = (volume.k, volume.version + 1);
        self.tables.take_entry(row, k);
        self.tables.volume_mut(number).unwrap().version = version;
        plain(u64::from(version))
    }

    fn look(&self, number: u32, path: &[u8]) -> Answer {
        require(is_path(path), BAD)?;
        let token = self.tables.token(number).ok_or(NO_TOKEN)?;
        require(self.in_window(token), WINDOW)?;
        require(reads(token.scope.mode), MODE)?;
        require(path.starts_with(&token.scope.prefix), PREFIX)?;
        let entry = self.tables.entry(token.volume, path).ok_or(NO_ENTRY)?;
        Ok(Given { value: entry.size, hash: Some(entry.hash) })
    }

    fn register(&mut self, capacity: u64) -> Answer {
        let tables = &mut self.tables;
        require(capacity <= MOST_CAPACITY, BAD)?;
        let number = next_number(tables.last_relay)?;
        let row = free_row(&tables.relays)?;
        tables.last_relay = number;
        let heartbeat = tables.clock;
        tables.relays[row] = Some(Relay { number, capacity, used: 0, held: 0, heartbeat });
        plain(u64::from(number))
    }

    fn heartbeat(&mut self, number: u32) -> Answer {
        let clock = self.tables.clock;
        let relay = self.tables.relay_mut(number).ok_or(NO_RELAY)?;
        require(relay.health(clock) > 0, NO_RELAY)?;
        relay.heartbeat = clock;
        plain(0)
    }
}
