//! Desks of a stated setting, by the calls that make them.

use crate::amount::Cap;
use crate::call::{Bytes32, Call, Scope};
use crate::desk::{CHAIN, LONGEST_PATH, MOST_CAPACITY, PUTS};
use crate::journal::Version;

/// The owner of all volumes of these desks.
pub const OWNER: Bytes32 = [7; 32];

/// How much a desk holds. All entries, tokens and sessions are of volume 1.
#[derive(Clone, Copy, Debug)]
pub struct Setting {
    pub relays: usize,
    /// K and M of each volume.
    pub shards: (u8, u8),
    pub volumes: usize,
    pub entries: usize,
    /// Chains of 8 tokens.
    pub chains: usize,
    pub sessions: usize,
    pub puts: usize,
    /// How long each path is.
    pub path: usize,
}

impl Setting {
    /// The first version of a journal that can hold the paths.
    pub fn version(&self) -> Version {
        // No path of a setting is longer than a text of version 02.
        Version::holding(self.path).unwrap()
    }
}

pub const EMPTY: Setting = Setting {
    relays: 0,
    shards: (2, 1),
    volumes: 0,
    entries: 0,
    chains: 0,
    sessions: 0,
    puts: 0,
    path: 128,
};

pub const HALF: Setting = Setting {
    relays: 16,
    shards: (8, 4),
    volumes: 4,
    entries: 32,
    chains: 2,
    sessions: 2,
    puts: 4,
    path: 128,
};

pub const FULL: Setting = Setting {
    relays: 32,
    shards: (16, 8),
    volumes: 8,
    entries: 64,
    chains: 4,
    sessions: 4,
    puts: 8,
    path: 128,
};

/// As FULL with paths as long as they can be. A journal that made it with 8 puts a slot would be too long.
pub const FULL_LONGEST: Setting = Setting { path: LONGEST_PATH, puts: 5, ..FULL };

/// A path of `length` bytes, 6 or more. The longest common start that different ones can have.
pub fn path(length: usize, number: usize) -> Vec<u8> {
    let number = format!("/{number:0>4}");
    let mut path = vec![b'p'; length - number.len()];
    path.extend(number.bytes());
    path
}

pub fn all() -> Scope {
    Scope { prefix: vec![], mode: 2, cap: Cap::Unlimited, from: 0, until: u64::MAX }
}

/// Scope with a prefix that covers the paths of this length.
fn covering(length: usize) -> Scope {
    let number = 5;
    let mut prefix = vec![b'p'; length - number];
    prefix.push(b'/');
    Scope { prefix, ..all() }
}

/// An open, stages of these paths and a commit.
pub fn session(slot: u8, token: u32, paths: impl Iterator<Item = Vec<u8>>) -> Vec<Call> {
    let stage = |path| Call::Stage { slot, path, size: 1_000, hash: [9; 32] };
    let mut calls = vec![Call::Open { slot, token }];
    calls.extend(paths.map(stage));
    calls.push(Call::Commit { slot });
    calls
}

/// The calls that make the desk, all at block 0. Every one is accepted.
pub fn calls(s: Setting) -> Vec<Call> {
    let mut calls = Vec::new();
    calls.extend((0..s.relays).map(|_| Call::Register { capacity: MOST_CAPACITY }));
    for volume in 0..s.volumes {
        let (name, (k, m)) = (format!("volume-{volume}").into_bytes(), s.shards);
        calls.push(Call::Create { account: OWNER, name, k, m, cap: Cap::Unlimited });
        calls.push(Call::Deposit { volume: volume as u32 + 1, coins: 1_000_000_000_000 });
    }
    for chain in 0..s.chains {
        let root = (chain * CHAIN) as u32 + 1;
        calls.push(Call::Grant { account: OWNER, volume: 1, scope: covering(s.path) });
        let children = (root..root + CHAIN as u32 - 1)
            .map(|parent| Call::Attenuate { token: parent, scope: covering(s.path) });
        calls.extend(children);
    }
    for first in (0..s.entries).step_by(PUTS) {
        let last = s.entries.min(first + PUTS);
        calls.extend(session(0, 1, (first..last).map(|n| path(s.path, n))));
    }
    for slot in 0..s.sessions as u8 {
        let mut open = session(slot, 1, (0..s.puts).map(|n| path(s.path, n)));
        open.pop();
        calls.extend(open);
    }
    calls
}
