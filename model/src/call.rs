//! The calls of kinds 01 to 10, with their fields, and the answers.

use crate::amount::Cap;

/// An owner's account, or a hash.
pub type Bytes32 = [u8; 32];

/// Mode is 0 read, 1 write, 2 both.
#[derive(Clone, Debug, PartialEq, Eq)]
pub struct Scope {
    pub prefix: Vec<u8>,
    pub mode: u8,
    pub cap: Cap,
    pub from: u64,
    pub until: u64,
}

#[derive(Clone, Debug, PartialEq, Eq)]
pub enum Call {
    Advance { block: u64 },
    Create { account: Bytes32, name: Vec<u8>, k: u8, m: u8, cap: Cap },
    Deposit { volume: u32, coins: u64 },
    Delete { account: Bytes32, volume: u32 },
    Undelete { account: Bytes32, volume: u32 },
    Grant { account: Bytes32, volume: u32, scope: Scope },
    Attenuate { token: u32, scope: Scope },
    Revoke { account: Bytes32, token: u32 },
    Open { slot: u8, token: u32 },
    Stage { slot: u8, path: Vec<u8>, size: u64, hash: Bytes32 },
    Commit { slot: u8 },
    Abandon { slot: u8 },
    Remove { account: Bytes32, volume: u32, path: Vec<u8> },
    Look { token: u32, path: Vec<u8> },
    Register { capacity: u64 },
    Heartbeat { relay: u32 },
}

impl Call {
    /// The journal kind.
    pub fn kind(&self) -> u8 {
        match self {
            Call::Advance { .. } => 0x01,
            Call::Create { .. } => 0x02,
            Call::Deposit { .. } => 0x03,
            Call::Delete { .. } => 0x04,
            Call::Undelete { .. } => 0x05,
            Call::Grant { .. } => 0x06,
            Call::Attenuate { .. } => 0x07,
            Call::Revoke { .. } => 0x08,
            Call::Open { .. } => 0x09,
            Call::Stage { .. } => 0x0A,
            Call::Commit { .. } => 0x0B,
            Call::Abandon { .. } => 0x0C,
            Call::Remove { .. } => 0x0D,
            Call::Look { .. } => 0x0E,
            Call::Register { .. } => 0x0F,
            Call::Heartbeat { .. } => 0x10,
        }
    }

    /// The path or prefix of a call that has one.
    pub fn path_or_prefix(&self) -> Option<&[u8]> {
        match self {
            Call::Grant { scope, .. } | Call::Attenuate { scope, .. } => Some(&scope.prefix),
            Call::Stage { path, .. } | Call::Remove { path, .. } | Call::Look { path, .. } => {
                Some(path)
            }
            _ => None,
        }
    }

    /// The slot of a call of kinds 09 to 0C.
    pub fn slot(&self) -> Option<u8> {
        match *self {
            Call::Open { slot, .. }
            | Call::Stage { slot, .. }
            | Call::Commit { slot }
            | Call::Abandon { slot } => Some(slot),
            _ => None,
        }
    }
}

/// What an accepted call gives: its value, and the hash that look hands back.
#[derive(Clone, Copy, Debug, PartialEq, Eq)]
pub struct Given {
    pub value: u64,
    pub hash: Option<Bytes32>,
}

/// Accepted, or the number of the refusal.
pub type Answer = Result<Given, u32>;

/// The answer's number: 0 for success.
pub fn number(answer: &Answer) -> u32 {
    answer.err().unwrap_or(0)
}

/// The answer's value: 0 beside a refusal.
pub fn value(answer: &Answer) -> u64 {
    answer.map_or(0, |given| given.value)
}
