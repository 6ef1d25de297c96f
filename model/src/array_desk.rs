//! The desk in fixed arrays, and the test that is answered 1 before all else, written for speed.
//!
//! A number 0 marks a free row, an entry's volume 0 a free entry row, a session's token 0 an idle slot. A free row is free
//! whatever else it holds; what stands after a text's or a placement's length is not read.

use crate::amount::Cap;
use crate::desk::{self, Desk, Status, CHAIN, ENTRIES, PUTS, RELAYS, SLOTS, TOKENS, VOLUMES};
use crate::desk::{
    LAST_NUMBER, LONGEST_NAME, LONGEST_PATH, MOST_BALANCE, MOST_BLOCK, MOST_CAPACITY, MOST_DEPOSITS,
};
use crate::desk::{MOST_SIZE, MOST_USED};

/// A text of at most MOST bytes.
#[derive(Clone, Copy)]
pub struct Text<const MOST: usize> {
    pub bytes: [u8; MOST],
    pub len: usize,
}

pub type Name = Text<LONGEST_NAME>;
/// A path or a prefix.
pub type Path = Text<LONGEST_PATH>;

#[derive(Clone, Copy)]
pub struct Volume {
    pub no: u32,
    pub owner: [u8; 32],
    pub name: Name,
    pub k: u8,
    pub m: u8,
    pub cap: Cap,
    /// 0 ACTIVE, 1 GRACE_PERIOD, 2 DELETED.
    pub status: u8,
    pub balance: u64,
    pub version: u32,
    pub grace: u8,
    pub deleted: u64,
}

#[derive(Clone, Copy)]
pub struct Entry {
    pub volume: u32,
    pub path: Path,
    pub size: u64,
    pub hash: [u8; 32],
    pub relays: [u32; 24],
    pub len: usize,
}

#[derive(Clone, Copy)]
pub struct Token {
    pub no: u32,
    pub volume: u32,
    pub parent: u32,
    pub prefix: Path,
    pub mode: u8,
    pub cap: Cap,
    pub from: u64,
    pub until: u64,
    pub used: u64,
}

#[derive(Clone, Copy)]
pub struct Relay {
    pub no: u32,
    pub capacity: u64,
    pub used: u64,
    pub held: u32,
    pub beat: u64,
}

#[derive(Clone, Copy)]
pub struct Put {
    pub path: Path,
    pub size: u64,
    pub hash: [u8; 32],
}

#[derive(Clone, Copy)]
pub struct Session {
    pub token: u32,
    pub volume: u32,
    pub version: u32,
    pub count: usize,
    pub puts: [Put; PUTS],
}

#[derive(Clone)]
pub struct ArrayDesk {
    pub clock: u64,
    pub rate: u16,
    pub volumes: [Volume; VOLUMES],
    pub entries: [Entry; ENTRIES],
    pub tokens: [Token; TOKENS],
    pub relays: [Relay; RELAYS],
    pub last_volume: u32,
    pub last_token: u32,
    pub last_relay: u32,
    pub deposits: u64,
    pub sessions: [Session; SLOTS],
}

impl<const MOST: usize> Text<MOST> {
    const EMPTY: Text<MOST> = Text { bytes: [0; MOST], len: 0 };

    pub fn new(text: &[u8]) -> Text<MOST> {
        let mut new = Text::EMPTY;
        new.bytes[..text.len()].copy_from_slice(text);
        new.len = text.len();
        new
    }

    /// The bytes of the text; none where its length is not within the array.
    fn get(&self) -> Option<&[u8]> {
        self.bytes.get(..self.len)
    }
}

impl Name {
    fn is_name(&self) -> bool {
        self.get().is_some_and(desk::is_name)
    }
}

impl Path {
    fn is_path(&self, is_path: IsPath) -> bool {
        self.get().is_some_and(is_path)
    }

    fn is_prefix(&self, is_path: IsPath) -> bool {
        match self.get().map(|text| text.split_last()) {
            Some(Some((last, path))) => *last == b'/' && is_path(path),
            Some(None) => true,
            None => false,
        }
    }

    /// Equal texts have equal keys: the length and the last bytes, which differ most often.
    fn key(&self) -> u64 {
        let end = self.len.max(8);
        let last: [u8; 8] = self.bytes[end - 8..end].try_into().unwrap_or([0; 8]);
        u64::from_le_bytes(last) ^ (self.len as u64) << 56
    }
}

/// Whether at most 512 bytes are a path.
pub type IsPath = fn(&[u8]) -> bool;

/// One walk, byte by byte: bytes in 0x21..0x7E, and no part that is empty, "." or "..".
pub fn is_path_by_bytes(text: &[u8]) -> bool {
    // Bytes in the part so far, and whether all of them are ".".
    let (mut count, mut dots) = (0, true);
    for byte in text {
        match *byte {
            b'/' if count == 0 || (dots && count <= 2) => return false,
            b'/' => (count, dots) = (0, true),
            byte @ 0x21..=0x7E => {
                dots &= byte == b'.';
                count += 1;
            }
            _ => return false,
        }
    }
    count > 0 && !(dots && count <= 2)
}

/// Walks that do not stop before the end, which the compiler turns into instructions on many bytes at once. Only a text
/// with a "." in it is looked at part by part.
pub fn is_path_by_walks(text: &[u8]) -> bool {
    let (Some(first), Some(last)) = (text.first(), text.last()) else {
        return false;
    };
    let in_range = text.iter().fold(true, |all, b| all & (0x21..=0x7E).contains(b));
    let dots = text.iter().fold(false, |any, b| any | (*b == b'.'));
    if dots {
        let is_part = |part: &[u8]| !part.is_empty() && part != b"." && part != b"..";
        return in_range && text.split(|b| *b == b'/').all(is_part);
    }
    let pairs = text.iter().zip(&text[1..]);
    let doubled = pairs.fold(false, |any, (a, b)| any | ((*a == b'/') & (*b == b'/')));
    in_range && !doubled && *first != b'/' && *last != b'/'
}

/// Tests desks. It keeps tables by relay number, so that each shard is counted with one look.
pub struct Tester {
    is_path: IsPath,
    /// The row of a relay in the table, or RELAYS.
    row: Vec<u8>,
    /// The last placement that named the relay.
    seen: Vec<u64>,
    placements: u64,
}

impl Tester {
    /// A tester with one of the two ways to test a path.
    pub fn new(is_path: IsPath) -> Tester {
        let numbers = LAST_NUMBER as usize + 1;
        Tester { is_path, row: vec![RELAYS as u8; numbers], seen: vec![0; numbers], placements: 0 }
    }

    /// Whether a desk passes the test that is answered 1 before all else.
    pub fn test(&mut self, d: &ArrayDesk) -> bool {
        let lasts = d.last_volume.max(d.last_token).max(d.last_relay);
        d.clock <= MOST_BLOCK
            && d.deposits <= MOST_DEPOSITS
            && lasts <= LAST_NUMBER
            && volumes(d)
            && tokens(d, self.is_path)
            && d.sessions.iter().all(|s| s.token == 0 || session(d, s, self.is_path))
            && self.entries_and_relays(d)
    }

    fn entries_and_relays(&mut self, d: &ArrayDesk) -> bool {
        for (row, relay) in d.relays.iter().enumerate().filter(|(_, r)| r.no != 0) {
            let known = relay.no <= d.last_relay && self.row[relay.no as usize] == RELAYS as u8;
            if !known || relay.beat > d.clock || relay.capacity > MOST_CAPACITY {
                self.clear(d);
                return false;
            }
            self.row[relay.no as usize] = row as u8;
        }
        let sound = paths(d, self.is_path) && self.loads(d);
        self.clear(d);
        sound
    }

    /// Forgets the relays of this desk.
    fn clear(&mut self, d: &ArrayDesk) {
        for relay in d.relays.iter().filter(|r| r.no <= LAST_NUMBER) {
            self.row[relay.no as usize] = RELAYS as u8;
        }
    }

    /// Placements of K+M different relays, and relay counts as they give.
    fn loads(&mut self, d: &ArrayDesk) -> bool {
        // The last one is for relays that have left the table.
        let (mut used, mut held) = ([0u64; RELAYS + 1], [0u32; RELAYS + 1]);
        for entry in d.entries.iter().filter(|e| e.volume != 0) {
            let Some(volume) = d.volumes.iter().find(|v| v.no == entry.volume) else {
                return false;
            };
            if entry.len != usize::from(volume.k) + usize::from(volume.m) {
                return false;
            }
            self.placements += 1;
            let shard = entry.size.div_ceil(u64::from(volume.k));
            for number in &entry.relays[..entry.len] {
                if *number == 0 || *number > d.last_relay {
                    return false;
                }
                let seen = &mut self.seen[*number as usize];
                if *seen == self.placements {
                    return false;
                }
                *seen = self.placements;
                let row = usize::from(self.row[*number as usize]);
                used[row] += shard;
                held[row] += 1;
            }
        }
        let counted = d.relays.iter().zip(used.iter().zip(&held));
        let mut taken = counted.filter(|(r, _)| r.no != 0);
        taken.all(|(r, (used, held))| r.used == *used && r.held == *held && r.used <= r.capacity)
    }
}

fn volumes(d: &ArrayDesk) -> bool {
    d.volumes.iter().enumerate().filter(|(_, v)| v.no != 0).all(|(row, v)| {
        let grace = match v.status {
            0 => v.grace == 0,
            1 => v.grace == 1 || v.grace == 2,
            _ => v.grace <= 2,
        };
        let is_same = |other: &Volume| {
            other.no == v.no
                || (other.no != 0
                    && other.owner == v.owner
                    && other.name.len == v.name.len
                    && other.name.get() == v.name.get())
        };
        v.no <= d.last_volume
            && (2..=16).contains(&v.k)
            && (1..=8).contains(&v.m)
            && v.cap.is_allowed()
            && v.balance <= MOST_BALANCE
            && grace
            && v.deleted <= d.clock
            && v.name.is_name()
            && !d.volumes[..row].iter().any(is_same)
    })
}

fn tokens(d: &ArrayDesk, is_path: IsPath) -> bool {
    // The row of each token's parent; its own where it has none.
    let mut parents = [0; TOKENS];
    for (row, token) in d.tokens.iter().enumerate().filter(|(_, t)| t.no != 0) {
        let parent = match token.parent {
            0 => Some(row),
            number => d.tokens.iter().position(|t| t.no == number),
        };
        let Some(parent) = parent else {
            return false;
        };
        parents[row] = parent;
        let sound = token.no <= d.last_token
            && (token.parent == 0 || parent != row)
            && token.cap.is_allowed()
            && token.from <= token.until
            && token.used <= MOST_USED
            && token.prefix.is_prefix(is_path)
            && d.volumes.iter().any(|v| v.no == token.volume)
            && token.volume != 0
            && !d.tokens[..row].iter().any(|t| t.no == token.no);
        if !sound {
            return false;
        }
    }
    // After 7 steps each chain of at most 8 is at its root.
    let root = |row: usize| (1..CHAIN).fold(row, |at, _| parents[at]);
    let mut taken = (0..TOKENS).filter(|row| d.tokens[*row].no != 0);
    taken.all(|row| d.tokens[root(row)].parent == 0)
}

/// Sizes and paths, and no path twice in a volume.
fn paths(d: &ArrayDesk, is_path: IsPath) -> bool {
    let mut keys = [0; ENTRIES];
    for (row, entry) in d.entries.iter().enumerate().filter(|(_, e)| e.volume != 0) {
        if entry.size > MOST_SIZE || !entry.path.is_path(is_path) {
            return false;
        }
        keys[row] = entry.path.key();
        let is_same = |other: usize| {
            let other = &d.entries[other];
            other.volume == entry.volume && other.path.get() == entry.path.get()
        };
        if (0..row).any(|other| keys[other] == keys[row] && is_same(other)) {
            return false;
        }
    }
    true
}

fn session(d: &ArrayDesk, s: &Session, is_path: IsPath) -> bool {
    let Some(puts) = s.puts.get(..s.count) else {
        return false;
    };
    let is_same = |a: &Put, b: &Put| a.path.len == b.path.len && a.path.get() == b.path.get();
    s.token <= d.last_token
        && (1..=d.last_volume).contains(&s.volume)
        && puts.iter().all(|p| p.size <= MOST_SIZE && p.path.is_path(is_path))
        && puts.iter().enumerate().all(|(at, p)| !puts[..at].iter().any(|q| is_same(p, q)))
}

const FREE_VOLUME: Volume = Volume {
    no: 0,
    owner: [0; 32],
    name: Text::EMPTY,
    k: 0,
    m: 0,
    cap: Cap::Bytes(0),
    status: 0,
    balance: 0,
    version: 0,
    grace: 0,
    deleted: 0,
};
const FREE_ENTRY: Entry =
    Entry { volume: 0, path: Text::EMPTY, size: 0, hash: [0; 32], relays: [0; 24], len: 0 };
const FREE_TOKEN: Token = Token {
    no: 0,
    volume: 0,
    parent: 0,
    prefix: Text::EMPTY,
    mode: 0,
    cap: Cap::Bytes(0),
    from: 0,
    until: 0,
    used: 0,
};
const FREE_RELAY: Relay = Relay { no: 0, capacity: 0, used: 0, held: 0, beat: 0 };
const FREE_PUT: Put = Put { path: Text::EMPTY, size: 0, hash: [0; 32] };
const IDLE: Session = Session { token: 0, volume: 0, version: 0, count: 0, puts: [FREE_PUT; PUTS] };

/// The rows of a table, free ones where there is none.
fn rows<S, T: Copy, const N: usize>(rows: &[Option<S>], free: T, new: fn(&S) -> T) -> [T; N] {
    std::array::from_fn(|row| rows[row].as_ref().map_or(free, new))
}

fn volume(v: &desk::Volume) -> Volume {
    let (status, deleted) = match v.status {
        Status::Active => (0, 0),
        Status::Grace => (1, 0),
        Status::Deleted(at) => (2, at),
    };
    Volume {
        no: v.number,
        owner: v.owner,
        name: Text::new(&v.name),
        k: v.k,
        m: v.m,
        cap: v.cap,
        status,
        balance: v.balance,
        version: v.version,
        grace: v.grace,
        deleted,
    }
}

fn entry(e: &desk::Entry) -> Entry {
    let mut relays = [0; 24];
    relays[..e.placement.len()].copy_from_slice(&e.placement);
    Entry {
        volume: e.volume,
        path: Text::new(&e.path),
        size: e.size,
        hash: e.hash,
        relays,
        len: e.placement.len(),
    }
}

fn token(t: &desk::Token) -> Token {
    Token {
        no: t.number,
        volume: t.volume,
        parent: t.parent.unwrap_or(0),
        prefix: Text::new(&t.scope.prefix),
        mode: t.scope.mode,
        cap: t.scope.cap,
        from: t.scope.from,
        until: t.scope.until,
        used: t.used,
    }
}

fn relay(r: &desk::Relay) -> Relay {
    Relay { no: r.number, capacity: r.capacity, used: r.used, held: r.held, beat: r.heartbeat }
}

fn slot(s: &desk::Session) -> Session {
    let mut puts = [FREE_PUT; PUTS];
    for (put, staged) in puts.iter_mut().zip(&s.puts) {
        *put = Put { path: Text::new(&staged.path), size: staged.size, hash: staged.hash };
    }
    Session { token: s.token, volume: s.volume, version: s.version, count: s.puts.len(), puts }
}

impl From<&Desk> for ArrayDesk {
    fn from(desk: &Desk) -> ArrayDesk {
        let t = &desk.tables;
        ArrayDesk {
            clock: t.clock,
            rate: t.rate,
            volumes: rows(&t.volumes, FREE_VOLUME, volume),
            entries: rows(&t.entries, FREE_ENTRY, entry),
            tokens: rows(&t.tokens, FREE_TOKEN, token),
            relays: rows(&t.relays, FREE_RELAY, relay),
            last_volume: t.last_volume,
            last_token: t.last_token,
            last_relay: t.last_relay,
            deposits: t.deposits,
            sessions: rows(&desk.sessions, IDLE, slot),
        }
    }
}
