//! Short forms of calls for the cases.
#![allow(dead_code)]

use model::amount::Cap;
use model::call::{number, value, Bytes32, Call, Scope};
use model::check::sound;
use model::desk::{Desk, Status, RATE};

pub const ANN: Bytes32 = [1; 32];
pub const BOB: Bytes32 = [2; 32];
pub const NONE: Cap = Cap::Unlimited;
pub const READ: u8 = 0;
pub const WRITE: u8 = 1;
pub const BOTH: u8 = 2;

pub fn advance(block: u64) -> Call {
    Call::Advance { block }
}

pub fn create(account: Bytes32, name: &str, k: u8, m: u8, cap: Cap) -> Call {
    Call::Create { account, name: name.into(), k, m, cap }
}

pub fn deposit(volume: u32, coins: u64) -> Call {
    Call::Deposit { volume, coins }
}

pub fn delete(account: Bytes32, volume: u32) -> Call {
    Call::Delete { account, volume }
}

pub fn undelete(account: Bytes32, volume: u32) -> Call {
    Call::Undelete { account, volume }
}

pub fn scope(prefix: &str, mode: u8, cap: Cap, from: u64, until: u64) -> Scope {
    Scope { prefix: prefix.into(), mode, cap, from, until }
}

/// Everything at any time.
pub fn all() -> Scope {
    scope("", BOTH, NONE, 0, u64::MAX)
}

pub fn grant(account: Bytes32, volume: u32, scope: Scope) -> Call {
    Call::Grant { account, volume, scope }
}

pub fn attenuate(token: u32, scope: Scope) -> Call {
    Call::Attenuate { token, scope }
}

pub fn revoke(account: Bytes32, token: u32) -> Call {
    Call::Revoke { account, token }
}

pub fn open(slot: u8, token: u32) -> Call {
    Call::Open { slot, token }
}

pub fn stage(slot: u8, path: &str, size: u64) -> Call {
    Call::Stage { slot, path: path.into(), size, hash: [size as u8; 32] }
}

pub fn commit(slot: u8) -> Call {
    Call::Commit { slot }
}

pub fn abandon(slot: u8) -> Call {
    Call::Abandon { slot }
}

pub fn remove(account: Bytes32, volume: u32, path: &str) -> Call {
    Call::Remove { account, volume, path: path.into() }
}

pub fn look(token: u32, path: &str) -> Call {
    Call::Look { token, path: path.into() }
}

pub fn register(capacity: u64) -> Call {
    Call::Register { capacity }
}

pub fn heartbeat(relay: u32) -> Call {
    Call::Heartbeat { relay }
}

/// A desk, with a short way to ask for answers.
pub struct Case(pub Desk);

impl Case {
    pub fn fresh() -> Case {
        Case(Desk::fresh(RATE))
    }

    /// Ten relays; volume 1 of ANN, 4+2, with coins; token 1 with all rights.
    pub fn settled() -> Case {
        let mut case = Case::fresh();
        (0..10).for_each(|_| case.accepts(register(1 << 42)));
        case.accepts(create(ANN, "v", 4, 2, NONE));
        case.accepts(deposit(1, 1_000_000_000));
        case.accepts(grant(ANN, 1, all()));
        case
    }

    /// The number and value of the answer. A refusal must change nothing.
    pub fn ask(&mut self, call: Call) -> (u32, u64) {
        let before = self.0.clone();
        let answer = self.0.run(&call);
        assert!(answer.is_ok() || before == self.0, "{call:?} is refused and changes the desk");
        (number(&answer), value(&answer))
    }

    #[track_caller]
    pub fn accepts(&mut self, call: Call) {
        let shown = format!("{call:?}");
        assert_eq!(self.ask(call).0, 0, "{shown}");
        sound(&self.0).unwrap();
    }

    /// Accepted with this value.
    #[track_caller]
    pub fn gives(&mut self, call: Call, value: u64) {
        let shown = format!("{call:?}");
        assert_eq!(self.ask(call), (0, value), "{shown}");
    }

    #[track_caller]
    pub fn refuses(&mut self, call: Call, number: u32) {
        let shown = format!("{call:?}");
        assert_eq!(self.ask(call), (number, 0), "{shown}");
    }

    /// Open, stage each, and the answer of commit; a refused session is abandoned.
    #[track_caller]
    pub fn session(&mut self, token: u32, puts: &[(&str, u64)]) -> u32 {
        self.accepts(open(0, token));
        for (path, size) in puts {
            self.accepts(stage(0, path, *size));
        }
        let number = self.ask(commit(0)).0;
        if number != 0 {
            self.accepts(abandon(0));
        }
        number
    }

    /// Sets a volume as after one epoch end not paid.
    pub fn enter_grace(&mut self, volume: u32) {
        let volume = self.0.tables.volume_mut_for_test(volume);
        (volume.status, volume.grace) = (Status::Grace, 1);
    }

    /// Heartbeats of all relays in the table.
    pub fn keep_alive(&mut self) {
        let live: Vec<u32> = self.0.tables.relays.iter().flatten().map(|r| r.number).collect();
        live.iter().for_each(|relay| self.accepts(heartbeat(*relay)));
    }

    /// In steps, so that relays stay and no two epoch ends are crossed at once.
    pub fn advance_alive(&mut self, block: u64) {
        while self.0.tables.clock < block {
            self.accepts(advance(block.min(self.0.tables.clock + 90)));
            self.keep_alive();
        }
    }

    /// Whole epochs' steps, without heartbeats.
    pub fn advance_to(&mut self, block: u64) {
        while self.0.tables.clock < block {
            self.accepts(advance(block.min(self.0.tables.clock + 3_600)));
        }
    }
}
