//! The calls of examples/long-paths.journal: a station that names its passes by date, dish and band.

use crate::amount::Cap;
use crate::call::{Bytes32, Call, Scope};
use crate::desk::LONGEST_PATH;

const STATION: Bytes32 = [0xA1; 32];

/// Date, dish and band, as a prefix.
const BAND: &str = "2026-11-16/north-station/dish-03-parabolic-13-metres-azimuth-elevation-mount/\
                    band-S-2200-to-2290-MHz-right-hand-circular-polarisation/";
/// The same dish in another band.
const OTHER_BAND: &str =
    "2026-11-16/north-station/dish-03-parabolic-13-metres-azimuth-elevation-mount/\
     band-X-8025-to-8400-MHz-right-hand-circular-polarisation/";

/// A recording of one pass.
fn recording(band: &str) -> Vec<u8> {
    let pass = "pass-0412-rise-14-12-33-set-14-21-09-highest-71-degrees/samples-16-bit.raw";
    format!("{band}{pass}").into_bytes()
}

/// A path of so many bytes: where the dish pointed during a pass, one part for each position.
fn track(length: usize) -> Vec<u8> {
    let position = |step: usize| format!("/azimuth-{:03}-elevation-{:02}", 118 + step, 5 + step);
    let positions = (0..).flat_map(|step| position(step).into_bytes());
    let start = format!("{BAND}pass-0413-track");
    start.into_bytes().into_iter().chain(positions).take(length).collect()
}

/// Every call of the journal.
pub fn long_paths() -> Vec<Call> {
    let (slot, volume, token) = (0, 1, 1);
    let scope = |prefix: Vec<u8>, mode: u8| Scope {
        prefix,
        mode,
        cap: Cap::Unlimited,
        from: 0,
        until: 100_000,
    };
    let grant = |prefix, mode| Call::Grant { account: STATION, volume, scope: scope(prefix, mode) };
    let stage = |path: Vec<u8>, mib: u64| {
        let hash = [mib as u8; 32];
        Call::Stage { slot, path, size: mib << 20, hash }
    };
    let look = |path| Call::Look { token, path };
    let too_long_prefix = [&track(LONGEST_PATH)[..], b"/"].concat();
    vec![
        Call::Advance { block: 100 },
        Call::Register { capacity: 4 << 30 },
        Call::Register { capacity: 4 << 30 },
        Call::Register { capacity: 4 << 30 },
        Call::Create {
            account: STATION,
            name: b"passes".to_vec(),
            k: 2,
            m: 1,
            cap: Cap::Bytes(64 << 30),
        },
        Call::Deposit { volume, coins: 50_000 },
        grant(BAND.into(), 2),
        grant(too_long_prefix, 2),
        Call::Open { slot, token },
        stage(recording(BAND), 96),
        stage(recording(OTHER_BAND), 64),
        stage(track(LONGEST_PATH), 2),
        stage(track(LONGEST_PATH + 1), 2),
        Call::Commit { slot },
        look(recording(BAND)),
        look(track(LONGEST_PATH)),
        look(track(LONGEST_PATH - 1)),
        Call::Remove { account: STATION, volume, path: recording(BAND) },
        look(recording(BAND)),
    ]
}
