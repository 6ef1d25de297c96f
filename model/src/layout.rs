//! The desk as bytes: every field of every row and slot, in a fixed order, big-endian.
//!
//! A free row is all zeros, but the cap of a free volume or token row is that of 0 bytes.
//! A path or prefix takes 512 bytes and a name 64, zeros after its own, then its length in 8; a placement takes 24 numbers,
//! then its length in 8.

use crate::amount::Cap;
use crate::desk::*;

/// How many bytes a desk takes.
pub const DESK: usize = 81_046;

/// How many bytes a row or slot of each kind takes, and a put of a slot.
const VOLUME: usize = 141;
const ENTRY: usize = 668;
const TOKEN: usize = 566;
const RELAY: usize = 32;
const SLOT: usize = 4_500;
const PUT: usize = 560;
const SHARDS: usize = 24;

struct Writer(Vec<u8>);

impl Writer {
    fn u8(&mut self, n: u8) {
        self.0.push(n);
    }

    fn u16(&mut self, n: u16) {
        self.0.extend(n.to_be_bytes());
    }

    fn u32(&mut self, n: u32) {
        self.0.extend(n.to_be_bytes());
    }

    fn u64(&mut self, n: u64) {
        self.0.extend(n.to_be_bytes());
    }

    fn zeros(&mut self, count: usize) {
        self.0.resize(self.0.len() + count, 0);
    }

    fn text(&mut self, text: &[u8], longest: usize) {
        self.0.extend(text);
        self.zeros(longest - text.len());
        self.u64(text.len() as u64);
    }

    /// A path or a prefix.
    fn path(&mut self, text: &[u8]) {
        self.text(text, LONGEST_PATH);
    }

    fn cap(&mut self, cap: Cap) {
        match cap {
            Cap::Unlimited => self.zeros(9),
            Cap::Bytes(n) => {
                self.u8(1);
                self.u64(n);
            }
        }
    }

    fn volume(&mut self, v: &Volume) {
        self.u32(v.number);
        self.0.extend(v.owner);
        self.text(&v.name, LONGEST_NAME);
        self.u8(v.k);
        self.u8(v.m);
        self.cap(v.cap);
        let (status, deleted) = match v.status {
            Status::Active => (0, 0),
            Status::Grace => (1, 0),
            Status::Deleted(at) => (2, at),
        };
        self.u8(status);
        self.u64(v.balance);
        self.u32(v.version);
        self.u8(v.grace);
        self.u64(deleted);
    }

    fn free_volume(&mut self) {
        self.zeros(4 + 32 + LONGEST_NAME + 8 + 2);
        self.cap(Cap::Bytes(0));
        self.zeros(1 + 8 + 4 + 1 + 8);
    }

    fn entry(&mut self, e: &Entry) {
        self.u32(e.volume);
        self.path(&e.path);
        self.u64(e.size);
        self.0.extend(e.hash);
        e.placement.iter().for_each(|relay| self.u32(*relay));
        self.zeros(4 * (SHARDS - e.placement.len()));
        self.u64(e.placement.len() as u64);
    }

    fn token(&mut self, t: &Token) {
        self.u32(t.number);
        self.u32(t.volume);
        self.u32(t.parent.unwrap_or(0));
        self.path(&t.scope.prefix);
        self.u8(t.scope.mode);
        self.cap(t.scope.cap);
        self.u64(t.scope.from);
        self.u64(t.scope.until);
        self.u64(t.used);
    }

    fn free_token(&mut self) {
        self.zeros(4 + 4 + 4 + LONGEST_PATH + 8 + 1);
        self.cap(Cap::Bytes(0));
        self.zeros(8 + 8 + 8);
    }

    fn relay(&mut self, r: &Relay) {
        self.u32(r.number);
        self.u64(r.capacity);
        self.u64(r.used);
        self.u32(r.held);
        self.u64(r.heartbeat);
    }

    fn session(&mut self, s: &Session) {
        self.u32(s.token);
        self.u32(s.volume);
        self.u32(s.version);
        self.u64(s.puts.len() as u64);
        for put in &s.puts {
            self.path(&put.path);
            self.u64(put.size);
            self.0.extend(put.hash);
        }
        self.zeros((PUTS - s.puts.len()) * PUT);
    }

    /// Each row, by one function where it is taken and another where it is free.
    fn rows<T>(&mut self, rows: &[Option<T>], taken: fn(&mut Writer, &T), free: fn(&mut Writer)) {
        for row in rows {
            match row {
                Some(thing) => taken(self, thing),
                None => free(self),
            }
        }
    }
}

/// The desk as DESK bytes.
pub fn desk_bytes(desk: &Desk) -> Vec<u8> {
    let t = &desk.tables;
    let mut w = Writer(Vec::with_capacity(DESK));
    w.u64(t.clock);
    w.u16(t.rate);
    w.rows(&t.volumes, Writer::volume, Writer::free_volume);
    w.rows(&t.entries, Writer::entry, |w| w.zeros(ENTRY));
    w.rows(&t.tokens, Writer::token, Writer::free_token);
    w.rows(&t.relays, Writer::relay, |w| w.zeros(RELAY));
    w.u32(t.last_volume);
    w.u32(t.last_token);
    w.u32(t.last_relay);
    w.u64(t.deposits);
    w.rows(&desk.sessions, Writer::session, |w| w.zeros(SLOT));
    w.0
}

/// In words, what stands at a place of these bytes.
pub fn place(at: usize) -> String {
    let parts = [
        ("clock and rate", 1, 10),
        ("volume row", VOLUMES, VOLUME),
        ("entry row", ENTRIES, ENTRY),
        ("token row", TOKENS, TOKEN),
        ("relay row", RELAYS, RELAY),
        ("last numbers and deposits", 1, 20),
        ("slot", SLOTS, SLOT),
    ];
    let mut at = at;
    for (name, rows, length) in parts {
        if at < rows * length {
            let row = if rows == 1 { String::new() } else { format!(" {}", at / length) };
            return format!("{name}{row}, byte {}", at % length);
        }
        at -= rows * length;
    }
    format!("after the desk, byte {at}")
}
