//! A seeded generator (xorshift) of amounts as text, of call histories and of damaged journals.

use crate::amount::Cap;
use crate::call::{value, Answer, Bytes32, Call, Scope};
use crate::desk::*;
use crate::journal::{self, Version};
use crate::refusal::BAD;
use std::ops::Range;

pub struct Random(u64);

impl Random {
    pub fn new(seed: u64) -> Random {
        // Neighbouring seeds are spread; the state must not be 0.
        let mut z = seed.wrapping_add(0x9E37_79B9_7F4A_7C15);
        z = (z ^ (z >> 30)).wrapping_mul(0xBF58_476D_1CE4_E5B9);
        z = (z ^ (z >> 27)).wrapping_mul(0x94D0_49BB_1331_11EB);
        Random((z ^ (z >> 31)) | 1)
    }

    pub fn word(&mut self) -> u64 {
        self.0 ^= self.0 >> 12;
        self.0 ^= self.0 << 25;
        self.0 ^= self.0 >> 27;
        self.0.wrapping_mul(0x2545_F491_4F6C_DD1D)
    }

    /// 0 to `bound` - 1.
    pub fn below(&mut self, bound: u64) -> u64 {
        ((u128::from(self.word()) * u128::from(bound)) >> 64) as u64
    }

    pub fn between(&mut self, low: u64, high: u64) -> u64 {
        low + self.below(high - low + 1)
    }

    pub fn index(&mut self, length: usize) -> usize {
        self.below(length as u64) as usize
    }

    pub fn chance(&mut self, percent: u64) -> bool {
        self.below(100) < percent
    }

    pub fn pick<'a, T>(&mut self, things: &'a [T]) -> &'a T {
        &things[self.index(things.len())]
    }

    /// `near` moved by at most 2.
    pub fn around(&mut self, near: u64) -> u64 {
        near.saturating_add(self.below(5)).saturating_sub(2)
    }
}

// Amounts.

/// The longest text given.
pub const LONGEST_TEXT: usize = 60;

const UNIT_TEXTS: [&str; 4] = ["B", "KiB", "MiB", "GiB"];

/// One amount as text, without a newline.
pub fn amount_text(r: &mut Random) -> Vec<u8> {
    let mut text = match r.below(100) {
        0..=24 => exact_fraction(r),
        25..=39 => plain_amount(r),
        40..=54 => near_limit(r),
        55..=57 => b"unlimited".to_vec(),
        58..=79 => damaged_amount(r),
        80..=89 => loose_pieces(r),
        90..=94 => long_digits(r),
        _ => any_bytes(r),
    };
    text.truncate(LONGEST_TEXT);
    text.retain(|b| *b != b'\n');
    text
}

fn digits(r: &mut Random, count: usize) -> String {
    (0..count).map(|_| char::from(b'0' + r.below(10) as u8)).collect()
}

fn mark(r: &mut Random) -> &'static str {
    if r.chance(50) {
        ","
    } else {
        "."
    }
}

/// A whole number of 2^-j units, so j decimals are exact.
fn exact_fraction(r: &mut Random) -> Vec<u8> {
    let unit = r.index(4);
    let j = r.below(10) as usize;
    let bits = (36 - 10 * unit as u64 + j as u64).min(40);
    let n = r.word() >> (63 - r.below(bits + 1));
    let part = ((n & ((1 << j) - 1)) * 10u64.pow(j as u32)) >> j;
    let whole = n >> j;
    let unit = UNIT_TEXTS[unit];
    if j == 0 {
        return format!("{whole} {unit}").into_bytes();
    }
    let mut fraction = format!("{part:0j$}");
    if r.chance(50) {
        let kept = fraction.trim_end_matches('0').len().max(1);
        fraction.truncate(kept);
    }
    fraction += &"0".repeat(r.index(11 - fraction.len()));
    format!("{whole}{}{fraction} {unit}", mark(r)).into_bytes()
}

/// Digits, perhaps a mark and digits, a unit.
fn plain_amount(r: &mut Random) -> Vec<u8> {
    let count = if r.chance(60) { r.between(1, 4) } else { r.between(1, 12) };
    let mut text = digits(r, count as usize);
    if r.chance(60) {
        let count = r.between(1, 10) as usize;
        text += mark(r);
        text += &digits(r, count);
    }
    format!("{text} {}", r.pick(&UNIT_TEXTS)).into_bytes()
}

const LIMITS: [&str; 24] = [
    "64 GiB",
    "64,000000000 GiB",
    "64.000000001 GiB",
    "63,999999999 GiB",
    "63.998046875 GiB",
    "64,001953125 GiB",
    "68719476736 B",
    "68719476737 B",
    "68719476735 B",
    "68719476736,0 B",
    "68719476736,000000001 B",
    "67108864 KiB",
    "67108865 KiB",
    "67108863,999023438 KiB",
    "67108864,001953125 KiB",
    "65536 MiB",
    "65536,001953125 MiB",
    "65535.998046875 MiB",
    "99999999999 GiB",
    "99999999999,999999999 GiB",
    "99999999999,5 B",
    "100000000000 B",
    "0,000000000 B",
    "0.000000001 GiB",
];

fn near_limit(r: &mut Random) -> Vec<u8> {
    let most = 1u64 << 36;
    match r.below(4) {
        0 => r.pick(&LIMITS).as_bytes().to_vec(),
        1 => {
            let unit = r.index(4);
            let near = most >> (10 * unit);
            format!("{} {}", r.around(near), UNIT_TEXTS[unit]).into_bytes()
        }
        2 => {
            let unit = r.index(4);
            let near = (most >> (10 * unit)) - r.below(2);
            let count = r.between(1, 10) as usize;
            let fraction = digits(r, count);
            format!("{near}{}{fraction} {}", mark(r), UNIT_TEXTS[unit]).into_bytes()
        }
        _ => {
            let whole = r.between(10, 13) as usize;
            let fraction = r.between(8, 11) as usize;
            let (whole, fraction) = (digits(r, whole), digits(r, fraction));
            format!("{whole}{}{fraction} {}", mark(r), r.pick(&UNIT_TEXTS)).into_bytes()
        }
    }
}

fn any_byte(r: &mut Random) -> u8 {
    if r.chance(80) {
        *r.pick(b"0123456789,. BKMGiTkmgbunlimitedUI+-_'\t/:;eE\r\0")
    } else {
        r.below(256) as u8
    }
}

/// A good amount with one to three changes.
fn damaged_amount(r: &mut Random) -> Vec<u8> {
    let mut text = match r.below(4) {
        0 => exact_fraction(r),
        1 => plain_amount(r),
        2 => near_limit(r),
        _ => b"unlimited".to_vec(),
    };
    let changes = if r.chance(75) { 1 } else { 3 };
    (0..changes).for_each(|_| damage_text(r, &mut text));
    text
}

fn damage_text(r: &mut Random, text: &mut Vec<u8>) {
    if text.is_empty() {
        return;
    }
    let at = r.index(text.len());
    let byte = any_byte(r);
    match r.below(9) {
        0 => text[at] = byte,
        1 => text.insert(at, byte),
        2 => {
            text.remove(at);
        }
        3 => text.push(byte),
        4 => text.insert(0, *r.pick(b"0 +-,.1")),
        5 => text[at] ^= 0x20,
        6 => text.insert(at, text[at]),
        7 => text.truncate(at),
        _ => text.push(*r.pick(b" B0\0")),
    }
}

/// Pieces of amounts in any order.
fn loose_pieces(r: &mut Random) -> Vec<u8> {
    let pieces = [
        "0",
        "1",
        "5",
        "007",
        "12",
        "999",
        ",",
        ".",
        " ",
        " ",
        "B",
        "KiB",
        "MiB",
        "GiB",
        " B",
        " KiB",
        " GiB",
        "kib",
        "KB",
        "unlimited",
        "Unlimited",
        "0,5",
        "1.5",
        "TiB",
        "",
    ];
    let count = r.below(6);
    (0..count).flat_map(|_| r.pick(&pieces).bytes()).collect()
}

fn long_digits(r: &mut Random) -> Vec<u8> {
    let (whole, fraction) = (r.between(9, 40) as usize, r.between(1, 25) as usize);
    let mut text = digits(r, whole);
    if r.chance(70) {
        text += mark(r);
        text += &digits(r, fraction);
    }
    format!("{text} {}", r.pick(&UNIT_TEXTS)).into_bytes()
}

fn any_bytes(r: &mut Random) -> Vec<u8> {
    let count = r.index(LONGEST_TEXT + 1);
    (0..count).map(|_| any_byte(r)).collect()
}

// Paths, prefixes and names.

/// Lengths at the limits of names, paths, prefixes and texts.
const TEXT_EDGES: [usize; 15] =
    [1, 63, 64, 65, 127, 128, 129, 255, 256, 510, 511, 512, 513, 1_023, 1_024];

/// A text near a path, a prefix or a name.
pub fn path_text(r: &mut Random) -> Vec<u8> {
    let parts = ["a", "job", ".", "..", "...", "", "~!", "A_b-9", ".a", "x y", "\u{e9}", "\u{7f}"];
    let mut text = match r.below(8) {
        0 => {
            let length = *r.pick(&TEXT_EDGES);
            let parts = r.chance(50);
            (0..length).map(|at| if parts && at % 9 == 8 { b'/' } else { b'p' }).collect()
        }
        1 => vec![r.below(256) as u8],
        2 => (0..r.below(12)).map(|_| *r.pick(b"ab./.-_ ")).collect(),
        3 => r.pick(&NAMES).as_bytes().to_vec(),
        _ => {
            let good = r.chance(60);
            let part = |r: &mut Random| match good {
                true => *r.pick(&["a", "job", "...", "~!", "A_b-9", ".a"]),
                false => *r.pick(&parts),
            };
            let count = r.between(1, 5);
            let parts: Vec<&str> = (0..count).map(|_| part(r)).collect();
            parts.join("/").into_bytes()
        }
    };
    if r.chance(25) {
        text.push(b'/');
    }
    if r.chance(10) && !text.is_empty() {
        let at = r.index(text.len());
        text[at] = r.below(256) as u8;
    }
    text
}

// Histories.

/// Which lengths the texts of a history have.
#[derive(Clone, Copy, Debug, PartialEq, Eq)]
pub enum Texts {
    /// Those that a journal of this version can hold.
    Of(Version),
    /// Those of the time when a path had at most 128 bytes: the calls are chosen as if a longer one were still answered 1,
    /// so that the journals are the same as then, byte for byte. The benchmark runs some of them.
    UpTo128,
}

impl Texts {
    /// About half of the seeds have version 01, the others version 02.
    pub fn for_seed(seed: u64) -> Texts {
        Texts::Of(*Random::new(seed ^ 0x7E27).pick(&Version::ALL))
    }

    /// The version of the journal.
    pub fn version(self) -> Version {
        match self {
            Texts::Of(version) => version,
            Texts::UpTo128 => Version::One,
        }
    }

    /// Lengths of good paths that are long.
    fn long_paths(self) -> &'static [usize] {
        match self {
            Texts::Of(Version::One) => &[127, 128, 129, 129, 200, 254, 255],
            Texts::Of(Version::Two) => &[127, 128, 129, 129, 200, 255, 256, 511, 512, 512],
            Texts::UpTo128 => &[126, 127, 128],
        }
    }

    /// Lengths of long prefixes without their slash. The longest is not always a prefix.
    fn long_prefixes(self) -> &'static [usize] {
        match self {
            Texts::Of(Version::One) => &[126, 127, 128, 199, 253, 254],
            Texts::Of(Version::Two) => &[126, 127, 128, 199, 254, 255, 509, 510, 511, 511, 512],
            Texts::UpTo128 => &[126, 127, 128],
        }
    }

    /// Text of a wrong path: too long, or of slashes where no text can be too long for a path.
    fn wrong_path(self, r: &mut Random) -> Vec<u8> {
        match self {
            Texts::Of(Version::One) => vec![b'/'; 255],
            Texts::Of(Version::Two) => vec![b'p'; *r.pick(&[513, 513, 514, 800, 1_023, 1_024])],
            Texts::UpTo128 => vec![b'p'; r.between(129, 255) as usize],
        }
    }

    /// A length that is too long for a name.
    fn wrong_name(self, r: &mut Random) -> usize {
        match self {
            Texts::Of(Version::Two) => *r.pick(&[65, 127, 128, 129, 255, 256, 512, 513, 1_024]),
            _ => r.between(65, 255) as usize,
        }
    }
}

/// How a history is inclined.
struct Habits {
    /// Out of 100: a field is chosen wrong.
    damage: u64,
    /// Out of 100: time jumps instead of small steps.
    jumps: u64,
    /// Sizes are small, so that tables fill before coins and relays run out.
    small: bool,
    /// Volumes get few coins.
    poor: bool,
    /// Few relays are kept.
    few_relays: bool,
    /// The entry table is filled again and again.
    crowded: bool,
    /// Time goes on slowly, so that relays stay and sessions are committed.
    steady: bool,
    /// More of the paths are long.
    long: bool,
}

/// Makes a history while running it, so that calls meet the desk as it is.
pub struct Maker {
    r: Random,
    desk: Desk,
    habits: Habits,
    texts: Texts,
    calls: Vec<Call>,
}

/// A history of `most` calls, or a few more.
pub fn history(seed: u64, rate: u16, most: usize, texts: Texts) -> Vec<Call> {
    let mut maker = Maker::new(seed, rate, texts);
    maker.settle();
    while maker.calls.len() < most {
        maker.act();
    }
    maker.calls
}

/// The rate for a history's seed: the program's, none, one, or the largest.
pub fn rate_for(seed: u64) -> u16 {
    [RATE, RATE, 0, 1, u16::MAX, 5_000][(seed % 6) as usize]
}

const PATHS: [&str; 14] = [
    "job/a", "job/b", "job/c/d", "jobs/x", "job", "data/x/y", "data/x/z", "data/w", "a", "z.txt",
    "data/...", "~/!", "job/a/b", "...",
];
const BAD_PATHS: [&str; 14] = [
    "", "/", "/a", "a/", "a//b", ".", "..", "a/./b", "a/../b", "a b", "a\u{7f}", "job/", "./a",
    "a/..",
];
const PREFIXES: [&str; 9] = ["", "", "", "job/", "job/c/", "data/", "data/x/", "jobs/", "job/a/"];
const BAD_PREFIXES: [&str; 8] = ["job", "/", "//", "/job/", "a//", "./", "a/../", "a b/"];
const NAMES: [&str; 9] = ["v", "w", "x", "y.z", ".", "A_b-9", "q", "r", "s"];
const BAD_NAMES: [&str; 5] = ["", "a b", "a/b", "a,b", "\u{e9}"];

impl Maker {
    fn new(seed: u64, rate: u16, texts: Texts) -> Maker {
        let mut r = Random::new(seed);
        let habits = Habits {
            damage: *r.pick(&[0, 2, 4, 8, 20]),
            jumps: *r.pick(&[5, 15, 30, 60]),
            small: r.chance(60),
            poor: r.chance(30),
            few_relays: r.chance(20),
            crowded: r.chance(15),
            steady: r.chance(40),
            long: texts != Texts::UpTo128 && r.chance(25),
        };
        Maker { r, desk: Desk::fresh(rate), habits, texts, calls: Vec::new() }
    }

    fn ask(&mut self, call: Call) -> Answer {
        // A path that is too long is answered 1 before all else, and nothing changes.
        let too_long = |path: &[u8]| self.texts == Texts::UpTo128 && path.len() > 128;
        let answer = match call.path_or_prefix() {
            Some(path) if too_long(path) => Err(BAD),
            _ => self.desk.run(&call),
        };
        self.calls.push(call);
        answer
    }

    /// A call whose answer is not looked at.
    fn push(&mut self, call: Call) {
        let _ = self.ask(call);
    }

    /// Some relays, volumes, coins and tokens to begin with.
    fn settle(&mut self) {
        if self.r.chance(50) {
            let block = self.r.between(3_500, 3_599);
            self.push(Call::Advance { block });
        }
        self.refill();
        for _ in 0..self.r.between(1, 4) {
            self.new_volume();
        }
        for _ in 0..self.r.between(1, 6) {
            self.grant();
        }
    }

    fn act(&mut self) {
        if self.habits.crowded && self.r.chance(4) {
            return self.crowd();
        }
        let steady = self.habits.steady && self.r.chance(85);
        match self.r.below(136) {
            17..=19 | 124..=133 if steady => self.whole_session(),
            0..=9 => self.step(),
            10..=16 => self.keep_alive(),
            17..=19 => self.jump(),
            20..=22 => self.refill(),
            23..=25 => self.new_volume(),
            26..=30 => self.deposit(),
            31 => self.delete(),
            32..=33 => self.undelete(),
            34..=38 => self.grant(),
            39..=45 => self.attenuate(),
            46 => self.revoke(),
            47..=54 => self.open(),
            55..=66 => self.stage(),
            67..=72 => self.commit(),
            73..=75 => self.abandon(),
            76..=80 => self.remove(),
            81..=89 => self.look(),
            90..=92 => self.heartbeat(),
            93..=111 => self.whole_session(),
            112..=115 => self.family(),
            116..=119 => self.conflict(),
            120..=121 => self.deep_chain(),
            122 => self.fill_entries(),
            123 => self.fill_table(),
            124..=125 => self.overtaken_session(),
            126 => self.clear_slots(),
            127..=128 => self.life_of_relay(),
            129 => self.lose_volume(),
            130..=133 => self.poor_volume(),
            _ => self.edge_of_rent(),
        }
    }

    fn wrong(&mut self) -> bool {
        let damage = self.habits.damage;
        self.r.chance(damage)
    }

    // Fields.

    fn account(&mut self) -> Bytes32 {
        let mut account = [0; 32];
        account[31] = self.r.below(3) as u8;
        account
    }

    fn hash(&mut self) -> Bytes32 {
        let word = self.r.word().to_be_bytes();
        std::array::from_fn(|i| word[i % 8] ^ i as u8)
    }

    fn number(&mut self, live: Vec<u32>, last: u32) -> u32 {
        if live.is_empty() || self.wrong() {
            let past = self.r.below(u64::from(last) + 2) as u32;
            return *self.r.pick(&[past, past, 0, 65_536, u32::MAX]);
        }
        *self.r.pick(&live)
    }

    fn volume(&mut self) -> u32 {
        let live = self.desk.tables.volumes.iter().flatten().map(|v| v.number);
        self.number(live.collect(), self.desk.tables.last_volume)
    }

    fn token(&mut self) -> u32 {
        let live = self.desk.tables.tokens.iter().flatten().map(|t| t.number);
        self.number(live.collect(), self.desk.tables.last_token)
    }

    /// A token that can write now, if there is one.
    fn writer(&mut self) -> u32 {
        let clock = self.desk.tables.clock;
        let can = |t: &&Token| t.scope.mode != 0 && (t.scope.from..=t.scope.until).contains(&clock);
        let live: Vec<u32> =
            self.desk.tables.tokens.iter().flatten().filter(can).map(|t| t.number).collect();
        if live.is_empty() || self.wrong() {
            return self.token();
        }
        *self.r.pick(&live)
    }

    fn relay(&mut self) -> u32 {
        let live = self.desk.tables.relays.iter().flatten().map(|r| r.number);
        self.number(live.collect(), self.desk.tables.last_relay)
    }

    fn owner(&mut self, volume: u32) -> Bytes32 {
        match self.desk.tables.volume(volume).map(|v| v.owner) {
            Some(owner) if !self.wrong() => owner,
            _ => self.account(),
        }
    }

    fn slot(&mut self) -> u8 {
        if self.wrong() {
            return *self.r.pick(&[4, 5, 255]);
        }
        self.r.below(4) as u8
    }

    /// An idle slot, if there is one.
    fn idle_slot(&mut self) -> u8 {
        let idle: Vec<u8> =
            (0..4).filter(|s| self.desk.sessions[usize::from(*s)].is_none()).collect();
        if idle.is_empty() || self.wrong() {
            return self.slot();
        }
        *self.r.pick(&idle)
    }

    fn busy_slot(&mut self) -> u8 {
        let busy: Vec<u8> =
            (0..4).filter(|s| self.desk.sessions[usize::from(*s)].is_some()).collect();
        if busy.is_empty() || self.wrong() {
            return self.slot();
        }
        *self.r.pick(&busy)
    }

    fn good_path(&mut self) -> Vec<u8> {
        match self.r.below(20) {
            0 => self.long_path(),
            1..=3 if self.habits.long => self.long_path(),
            1..=3 => format!("job/{}", self.r.below(40)).into_bytes(),
            4..=5 => format!("n{}", self.r.below(80)).into_bytes(),
            _ => self.r.pick(&PATHS).as_bytes().to_vec(),
        }
    }

    /// In most of them a part ends in the middle; the last byte is one of a few.
    fn long_path(&mut self) -> Vec<u8> {
        let length = *self.r.pick(self.texts.long_paths());
        let mut path = vec![b'p'; length];
        if self.texts != Texts::UpTo128 {
            path[length / 2] = *self.r.pick(b"//p");
            path[length - 1] = *self.r.pick(b"pqr");
        }
        path
    }

    fn path(&mut self) -> Vec<u8> {
        if self.wrong() {
            return match self.r.below(4) {
                0 => self.texts.wrong_path(&mut self.r),
                1 => vec![b'a', self.r.below(256) as u8, b'b'],
                _ => self.r.pick(&BAD_PATHS).as_bytes().to_vec(),
            };
        }
        self.good_path()
    }

    /// A path under a prefix, mostly.
    fn path_under(&mut self, prefix: &[u8]) -> Vec<u8> {
        let path = self.path();
        if path.starts_with(prefix) || self.r.chance(5) || self.wrong() {
            return path;
        }
        let last = *self.r.pick(&["a", "b", "c", "x/y", "..."]);
        self.under(prefix, last)
    }

    /// The path of this name under a prefix, or the name alone where the journal cannot hold the whole.
    fn under(&self, prefix: &[u8], name: &str) -> Vec<u8> {
        let whole = [prefix, name.as_bytes()].concat();
        match whole.len() <= self.texts.version().longest_text() {
            true => whole,
            false => name.as_bytes().to_vec(),
        }
    }

    fn prefix(&mut self) -> Vec<u8> {
        if self.wrong() {
            return self.r.pick(&BAD_PREFIXES).as_bytes().to_vec();
        }
        if self.r.chance(3) {
            let mut long = vec![b'l'; *self.r.pick(self.texts.long_prefixes())];
            long.push(b'/');
            return long;
        }
        self.r.pick(&PREFIXES).as_bytes().to_vec()
    }

    fn size(&mut self) -> u64 {
        if self.wrong() {
            return *self.r.pick(&[MOST_SIZE + 1, u64::MAX]);
        }
        let small = self.habits.small;
        match self.r.below(20) {
            0 => 0,
            1..=3 => self.r.between(1, 40),
            4..=12 => self.r.between(1, 1_000),
            13..=14 => *self.r.pick(&[400, 401, 600, 1_000]),
            15..=17 if small => self.r.between(1, 1 << 20),
            15..=17 => self.r.between(1, 1 << 30),
            18 if small => 1 << 20,
            18 => self.r.between(1 << 30, MOST_SIZE),
            _ if small => 7_864,
            _ => MOST_SIZE - self.r.below(2),
        }
    }

    fn cap(&mut self) -> Cap {
        if self.wrong() {
            return Cap::Bytes(*self.r.pick(&[MOST_SIZE + 1, u64::MAX]));
        }
        match self.r.below(12) {
            0..=5 => Cap::Unlimited,
            6 => Cap::Bytes(*self.r.pick(&[0, 1, 1_000, 1_000])),
            7 => Cap::Bytes(MOST_SIZE - 1),
            8 => Cap::Bytes(self.r.between(1, 5_000)),
            9 => Cap::Bytes(self.r.between(1, 1 << 22)),
            10 => Cap::Bytes(MOST_SIZE),
            _ => Cap::Bytes(self.r.between(1, MOST_SIZE)),
        }
    }

    fn mode(&mut self) -> u8 {
        *self.r.pick(&[2, 2, 2, 2, 1, 1, 0])
    }

    fn scope(&mut self) -> Scope {
        let clock = self.desk.tables.clock;
        let (mut from, mut until) = match self.r.below(12) {
            0 => (clock, clock),
            1 => (clock, clock + self.r.below(100)),
            2 => (clock + self.r.between(1, 60), u64::MAX),
            3 => (0, clock.saturating_sub(1)),
            4 => (clock.saturating_sub(50), clock + self.r.below(8_000)),
            _ => (0, u64::MAX),
        };
        if self.wrong() {
            (from, until) = (until, from);
        }
        Scope { prefix: self.prefix(), mode: self.mode(), cap: self.cap(), from, until }
    }

    // Calls.

    fn step(&mut self) {
        let jumps = self.habits.jumps;
        if !self.habits.steady && self.r.chance(jumps / 4) {
            return self.jump();
        }
        let most = if self.habits.steady { 12 } else { 40 };
        let block = self.desk.tables.clock + self.r.below(most);
        self.push(Call::Advance { block });
    }

    /// To a block where something happens, or near it.
    fn jump(&mut self) {
        let clock = self.desk.tables.clock;
        let next_end = (clock / EPOCH + 1) * EPOCH;
        let block = match self.r.below(12) {
            0..=2 => self.r.around(next_end),
            3 => next_end - self.r.between(1, 60).min(next_end - clock),
            4 => self.r.around(next_end + EPOCH),
            5..=6 => next_end + self.r.below(EPOCH),
            7..=8 => self.edge_block(),
            9 => self.deleted_block(),
            10 => clock,
            _ => *self.r.pick(&[0, clock.saturating_sub(1), MOST_BLOCK, MOST_BLOCK + 1, u64::MAX]),
        };
        self.push(Call::Advance { block });
    }

    /// Near health 50 or health 0 of some relay.
    fn edge_block(&mut self) -> u64 {
        let beats: Vec<u64> =
            self.desk.tables.relays.iter().flatten().map(|r| r.heartbeat).collect();
        if beats.is_empty() {
            return self.desk.tables.clock;
        }
        let after = *self.r.pick(&[50, 50, 100]);
        let beat = *self.r.pick(&beats);
        self.r.around(beat + after).max(self.desk.tables.clock)
    }

    /// Near the block at which some DELETED volume is collected.
    fn deleted_block(&mut self) -> u64 {
        let at = |v: &Volume| match v.status {
            Status::Deleted(at) => Some(at),
            _ => None,
        };
        let blocks: Vec<u64> = self.desk.tables.volumes.iter().flatten().filter_map(at).collect();
        if blocks.is_empty() {
            return self.desk.tables.clock;
        }
        let block = *self.r.pick(&blocks);
        self.r.around(block + KEPT_DELETED)
    }

    /// Heartbeats of most relays.
    fn keep_alive(&mut self) {
        let live: Vec<u32> = self.desk.tables.relays.iter().flatten().map(|r| r.number).collect();
        for relay in live {
            if self.r.chance(85) {
                self.push(Call::Heartbeat { relay });
            }
        }
    }

    fn capacity(&mut self) -> u64 {
        if self.wrong() {
            return *self.r.pick(&[MOST_CAPACITY + 1, u64::MAX]);
        }
        match self.r.below(12) {
            0 => 0,
            1 => self.r.between(1, 1_000),
            2..=3 => self.r.between(1_000, 1 << 20),
            4..=6 => self.r.between(1 << 20, 1 << 36),
            _ => MOST_CAPACITY,
        }
    }

    fn refill(&mut self) {
        let live = self.desk.tables.relays.iter().flatten().count() as u64;
        let wanted = match (self.habits.few_relays, self.r.below(10)) {
            (true, _) => self.r.between(2, 7),
            (_, 0) => 33,
            _ => self.r.between(6, 28),
        };
        for _ in live..wanted {
            let capacity = self.capacity();
            self.push(Call::Register { capacity });
        }
    }

    fn new_volume(&mut self) {
        let account = self.account();
        let name = match self.r.below(20) {
            0 => vec![b'N'; self.r.between(63, 64) as usize],
            _ => self.r.pick(&NAMES).as_bytes().to_vec(),
        };
        let name = match self.wrong() {
            true if self.r.chance(20) => vec![b'N'; self.texts.wrong_name(&mut self.r)],
            true => self.r.pick(&BAD_NAMES).as_bytes().to_vec(),
            false => name,
        };
        let (k, m) =
            *self.r.pick(&[(2, 1), (2, 1), (4, 2), (4, 2), (3, 1), (3, 3), (2, 8), (16, 8)]);
        let (k, m) = match self.wrong() {
            true => *self.r.pick(&[(1, 1), (17, 1), (2, 0), (2, 9), (0, 0), (255, 255)]),
            false => (k, m),
        };
        let cap = if self.r.chance(60) { Cap::Unlimited } else { self.cap() };
        let answer = self.ask(Call::Create { account, name, k, m, cap });
        if answer.is_ok() && self.r.chance(85) {
            let (volume, coins) = (value(&answer) as u32, self.coins());
            self.push(Call::Deposit { volume, coins });
        }
    }

    fn coins(&mut self) -> u64 {
        if self.wrong() {
            return *self.r.pick(&[u64::MAX, MOST_BALANCE, MOST_BALANCE + 1]);
        }
        match self.r.below(8) {
            0 => 0,
            1..=2 if self.habits.poor => self.r.between(1, 5),
            1..=2 => self.r.between(1, 1_000),
            _ if self.habits.poor => self.r.between(1, 300),
            3..=4 => 1_000_000,
            5 => self.r.between(1, 100_000_000_000),
            _ => MOST_BALANCE / 8,
        }
    }

    fn deposit(&mut self) {
        let (volume, coins) = (self.volume(), self.coins());
        self.push(Call::Deposit { volume, coins });
    }

    fn delete(&mut self) {
        let volume = self.volume();
        let account = self.owner(volume);
        self.push(Call::Delete { account, volume });
    }

    fn undelete(&mut self) {
        let is_deleted = |v: &&Volume| matches!(v.status, Status::Deleted(_));
        let live = self.desk.tables.volumes.iter().flatten();
        let deleted: Vec<u32> = live.filter(is_deleted).map(|v| v.number).collect();
        let volume = match deleted.first() {
            Some(number) if !self.r.chance(20) => *number,
            _ => self.volume(),
        };
        let account = self.owner(volume);
        self.push(Call::Undelete { account, volume });
    }

    fn grant(&mut self) {
        let volume = self.volume();
        let (account, scope) = (self.owner(volume), self.scope());
        self.push(Call::Grant { account, volume, scope });
    }

    /// A child that is within its parent, mostly.
    fn attenuate(&mut self) {
        let token = self.token();
        let mut scope = self.scope();
        if let Some(parent) = self.desk.tables.token(token).map(|t| t.scope.clone()) {
            if self.r.chance(70) {
                scope = self.narrowed(&parent);
            }
        }
        self.push(Call::Attenuate { token, scope });
    }

    fn narrowed(&mut self, parent: &Scope) -> Scope {
        let mut child = parent.clone();
        let most = match self.texts {
            Texts::Of(version) => version.longest_text() - 2,
            Texts::UpTo128 => 99,
        };
        if self.r.chance(20) && child.prefix.len() <= most {
            child.prefix.extend(self.r.pick(&["x/", "a/", "c/"]).bytes());
        }
        if self.r.chance(20) && parent.mode == 2 {
            child.mode = self.r.below(3) as u8;
        }
        child.cap = match parent.cap {
            Cap::Bytes(n) if self.r.chance(50) => Cap::Bytes(self.r.between(0, n)),
            Cap::Unlimited if self.r.chance(50) => self.cap(),
            same => same,
        };
        if self.r.chance(10) {
            child.until -= self.r.below(3).min(child.until - child.from);
        }
        if self.r.chance(8) {
            child.until = child.until.saturating_add(1);
            child.from = child.from.saturating_sub(self.r.below(2));
        }
        child
    }

    fn revoke(&mut self) {
        let token = self.token();
        let volume = self.desk.tables.token(token).map_or(0, |t| t.volume);
        let account = self.owner(volume);
        self.push(Call::Revoke { account, token });
    }

    fn open(&mut self) {
        let slot = if self.r.chance(90) { self.idle_slot() } else { self.slot() };
        let token = if self.r.chance(80) { self.writer() } else { self.token() };
        self.push(Call::Open { slot, token });
    }

    fn prefix_of_slot(&self, slot: u8) -> Vec<u8> {
        let session = self.desk.sessions.get(usize::from(slot)).and_then(|s| s.as_ref());
        let token = session.and_then(|s| self.desk.tables.token(s.token));
        token.map_or(Vec::new(), |t| t.scope.prefix.clone())
    }

    fn stage_at(&mut self, slot: u8) {
        let prefix = self.prefix_of_slot(slot);
        let (path, size, hash) = (self.path_under(&prefix), self.size(), self.hash());
        self.push(Call::Stage { slot, path, size, hash });
    }

    fn stage(&mut self) {
        let slot = self.busy_slot();
        self.stage_at(slot);
    }

    fn commit(&mut self) {
        let slot = self.busy_slot();
        self.push(Call::Commit { slot });
    }

    fn abandon(&mut self) {
        let slot = self.busy_slot();
        self.push(Call::Abandon { slot });
    }

    /// An entry's volume and path, if there is one.
    fn entry(&mut self) -> (u32, Vec<u8>) {
        let held: Vec<&Entry> = self.desk.tables.entries.iter().flatten().collect();
        if held.is_empty() || self.r.chance(10) {
            return (self.volume(), self.path());
        }
        let entry = *self.r.pick(&held);
        (entry.volume, entry.path.clone())
    }

    fn remove(&mut self) {
        let (volume, path) = self.entry();
        let account = self.owner(volume);
        self.push(Call::Remove { account, volume, path });
    }

    /// A look at an entry by a token of its volume, mostly.
    fn look(&mut self) {
        let (volume, path) = self.entry();
        let tokens = self.desk.tables.tokens.iter().flatten();
        let of_volume: Vec<u32> = tokens.filter(|t| t.volume == volume).map(|t| t.number).collect();
        let token = match of_volume.is_empty() || self.wrong() {
            true => self.token(),
            false => *self.r.pick(&of_volume),
        };
        let path = if self.wrong() { self.path() } else { path };
        self.push(Call::Look { token, path });
    }

    fn heartbeat(&mut self) {
        let relay = self.relay();
        self.push(Call::Heartbeat { relay });
    }

    // Several calls with one aim.

    fn whole_session(&mut self) {
        if self.r.chance(20) {
            self.refill();
        }
        if self.r.chance(10) {
            self.keep_alive();
        }
        let (slot, token) = (self.idle_slot(), self.writer());
        let answer = self.ask(Call::Open { slot, token });
        if answer.is_err() && self.r.chance(80) {
            return;
        }
        for _ in 0..self.r.below(6) {
            self.stage_at(slot);
            if self.r.chance(10) {
                self.step();
            }
        }
        self.end_session(slot);
    }

    /// Commits; after some refusals abandons, so that slots do not stay busy.
    fn end_session(&mut self, slot: u8) {
        let answer = self.ask(Call::Commit { slot });
        if answer.is_err() && self.r.chance(60) {
            self.push(Call::Abandon { slot });
        }
    }

    /// Cap 1,000 with children of 600 each: 600 by one, then 400 or 401 by the other.
    fn family(&mut self) {
        let volume = self.volume();
        let account = self.owner(volume);
        let scope = |cap| Scope { prefix: vec![], mode: 2, cap, from: 0, until: u64::MAX };
        let most = *self.r.pick(&[1_000, 1_000, MOST_SIZE]);
        let share = most / 10 * 6;
        let root = self.ask(Call::Grant { account, volume, scope: scope(Cap::Bytes(most)) });
        if root.is_err() {
            return;
        }
        let token = value(&root) as u32;
        let sizes = [share, most - share + self.r.below(2)];
        for size in sizes {
            let child = self.ask(Call::Attenuate { token, scope: scope(Cap::Bytes(share)) });
            let slot = self.idle_slot();
            self.push(Call::Open { slot, token: value(&child) as u32 });
            let (path, hash) = (self.good_path(), self.hash());
            self.push(Call::Stage { slot, path, size, hash });
            self.end_session(slot);
        }
        if self.r.chance(60) {
            self.push(Call::Revoke { account, token });
        }
    }

    /// Two sessions on one volume; the one that commits last meets a new version.
    fn conflict(&mut self) {
        let token = self.writer();
        let (first, second) = (self.idle_slot(), self.idle_slot());
        self.push(Call::Open { slot: first, token });
        self.push(Call::Open { slot: second, token });
        for slot in [first, second, first] {
            self.stage_at(slot);
        }
        self.end_session(second);
        self.end_session(first);
    }

    fn deep_chain(&mut self) {
        let mut token = self.token();
        for _ in 0..9 {
            let Some(parent) = self.desk.tables.token(token).map(|t| t.scope.clone()) else {
                return;
            };
            let scope = if self.r.chance(80) { parent } else { self.narrowed(&parent) };
            let answer = self.ask(Call::Attenuate { token, scope });
            if answer.is_err() {
                break;
            }
            token = value(&answer) as u32;
        }
    }

    /// Sessions of nine new paths each, the ninth refused.
    fn fill_entries(&mut self) {
        for _ in 0..self.r.between(1, 9) {
            let (slot, token) = (self.idle_slot(), self.writer());
            if self.ask(Call::Open { slot, token }).is_err() {
                return self.clear_slots();
            }
            let (prefix, group) = (self.prefix_of_slot(slot), self.r.below(9));
            for i in 0..self.r.between(7, 9) {
                let path = self.under(&prefix, &format!("f{group}-{i}"));
                let (size, hash) = (self.r.below(30), self.hash());
                self.push(Call::Stage { slot, path, size, hash });
            }
            if self.r.chance(20) {
                self.stage_at(slot);
            }
            self.end_session(slot);
        }
    }

    /// A volume with coins, and relays with room, whose paths fill the entry table; then puts that need no new row,
    /// puts that need one, and puts in a row that a remove freed.
    fn crowd(&mut self) {
        self.clear_slots();
        self.keep_alive();
        for _ in 0..3 {
            self.push(Call::Register { capacity: MOST_CAPACITY });
        }
        let (account, name) = (self.account(), format!("full{}", self.r.below(9)).into_bytes());
        let answer = self.ask(Call::Create { account, name, k: 2, m: 1, cap: Cap::Unlimited });
        let volume = value(&answer) as u32;
        self.push(Call::Deposit { volume, coins: 1_000_000 });
        let scope =
            Scope { prefix: vec![], mode: 2, cap: Cap::Unlimited, from: 0, until: u64::MAX };
        let token = value(&self.ask(Call::Grant { account, volume, scope })) as u32;
        let free = |desk: &Desk| desk.tables.entries.iter().filter(|e| e.is_none()).count();
        let mut next = 0;
        while free(&self.desk) > 0 {
            let count = free(&self.desk).min(PUTS) as u64;
            if !self.stored(token, next..next + count) {
                return;
            }
            next += count;
        }
        for _ in 0..self.r.between(1, 4) {
            let at = self.r.below(next);
            let count = self.r.between(1, 3);
            self.stored(token, at..at + count);
            let path = format!("c/{at}").into_bytes();
            self.push(Call::Remove { account, volume, path });
            self.stored(token, next..next + 1);
            next += 1;
        }
        if self.r.chance(50) {
            self.push(Call::Delete { account, volume });
        }
    }

    /// A session of small puts at numbered paths, and whether it was committed.
    fn stored(&mut self, token: u32, paths: Range<u64>) -> bool {
        let slot = self.idle_slot();
        self.push(Call::Open { slot, token });
        for path in paths {
            let (path, size, hash) =
                (format!("c/{path}").into_bytes(), self.r.below(30), self.hash());
            self.push(Call::Stage { slot, path, size, hash });
        }
        let committed = self.ask(Call::Commit { slot }).is_ok();
        if !committed {
            self.push(Call::Abandon { slot });
        }
        committed
    }

    /// One kind of row until none is free.
    fn fill_table(&mut self) {
        let kind = self.r.below(3);
        for _ in 0..34 {
            match kind {
                0 => self.grant(),
                1 => self.attenuate(),
                _ => {
                    let capacity = self.capacity();
                    self.push(Call::Register { capacity });
                }
            }
        }
    }

    /// A session whose token, volume, window or status goes before its commit.
    fn overtaken_session(&mut self) {
        let (slot, token) = (self.idle_slot(), self.writer());
        self.push(Call::Open { slot, token });
        self.stage_at(slot);
        let volume = self.desk.tables.token(token).map_or(0, |t| t.volume);
        let account = self.owner(volume);
        let clock = self.desk.tables.clock;
        match self.r.below(5) {
            0 => {
                self.push(Call::Revoke { account, token });
            }
            1 => {
                self.push(Call::Delete { account, volume });
            }
            2 => {
                self.push(Call::Delete { account, volume });
                self.push(Call::Advance { block: clock + EPOCH });
                self.push(Call::Advance { block: clock + KEPT_DELETED });
            }
            3 => {
                self.push(Call::Advance { block: (clock / EPOCH + 1) * EPOCH });
            }
            _ => {
                let block = clock + self.r.below(120);
                self.push(Call::Advance { block });
            }
        }
        self.stage_at(slot);
        self.end_session(slot);
    }

    fn clear_slots(&mut self) {
        for slot in 0..4 {
            self.push(Call::Abandon { slot });
        }
    }

    /// A relay's health at 50, 49 and 0, with a put at each.
    fn life_of_relay(&mut self) {
        let capacity = self.capacity();
        let answer = self.ask(Call::Register { capacity });
        let clock = self.desk.tables.clock;
        for after in [50, 51, 99, 100] {
            self.push(Call::Advance { block: clock + after });
            self.whole_session();
        }
        let relay = value(&answer) as u32;
        self.push(Call::Heartbeat { relay });
    }

    /// A volume with coins for few epochs, which is short, recovers or is collected.
    fn poor_volume(&mut self) {
        self.refill();
        let (account, coins) = (self.account(), self.r.between(1, 8));
        let name = format!("poor{}", self.r.below(4)).into_bytes();
        let answer = self.ask(Call::Create { account, name, k: 2, m: 1, cap: Cap::Unlimited });
        let volume = value(&answer) as u32;
        self.push(Call::Deposit { volume, coins });
        let scope =
            Scope { prefix: vec![], mode: 2, cap: Cap::Unlimited, from: 0, until: u64::MAX };
        let answer = self.ask(Call::Grant { account, volume, scope });
        let (slot, token) = (self.idle_slot(), value(&answer) as u32);
        self.push(Call::Open { slot, token });
        for _ in 0..self.r.between(1, 3) {
            let (path, size, hash) = (self.good_path(), self.r.between(1, 20_000), self.hash());
            self.push(Call::Stage { slot, path, size, hash });
        }
        self.end_session(slot);
        for _ in 0..self.r.between(2, 8) {
            self.poor_epoch(volume, token);
        }
    }

    /// One epoch of a poor volume, with a session open across its end.
    fn poor_epoch(&mut self, volume: u32, token: u32) {
        let end = (self.desk.tables.clock / EPOCH + 1) * EPOCH;
        let account = self.owner(volume);
        if self.r.chance(40) {
            let block = (end - self.r.between(1, 60)).max(self.desk.tables.clock);
            self.push(Call::Advance { block });
            self.refill();
        }
        let slot = self.idle_slot();
        self.push(Call::Open { slot, token });
        self.stage_at(slot);
        self.push(Call::Advance { block: end });
        self.end_session(slot);
        match self.r.below(10) {
            0..=1 => {
                let coins = self.r.between(0, 4);
                self.push(Call::Deposit { volume, coins });
            }
            2 => self.push(Call::Delete { account, volume }),
            3 => self.push(Call::Undelete { account, volume }),
            4 => self.remove(),
            _ => {}
        }
    }

    /// A volume with one epoch's rent, or one coin more, and an object whose effective size is rounded up past that rent,
    /// or just not.
    fn edge_of_rent(&mut self) {
        self.refill();
        let (k, m) = *self.r.pick(&[(3, 1), (3, 2), (3, 3), (4, 2), (5, 1)]);
        let (rent, account) = (self.r.between(1, 40), self.account());
        let name = format!("edge{}", self.r.below(4)).into_bytes();
        let answer = self.ask(Call::Create { account, name, k, m, cap: Cap::Unlimited });
        let volume = value(&answer) as u32;
        let coins = rent + self.r.below(2);
        self.push(Call::Deposit { volume, coins });
        let scope =
            Scope { prefix: vec![], mode: 2, cap: Cap::Unlimited, from: 0, until: u64::MAX };
        let token = value(&self.ask(Call::Grant { account, volume, scope })) as u32;
        // The largest effective size at this rent, and the smallest raw size that is above it.
        let largest = (rent << 20) / u64::from(self.desk.tables.rate.max(1));
        let above = largest * u64::from(k) / u64::from(k + m) + 1;
        let size = above - u64::from(self.r.chance(40));
        let (slot, path, hash) = (self.idle_slot(), self.good_path(), self.hash());
        self.push(Call::Open { slot, token });
        self.push(Call::Stage { slot, path, size, hash });
        self.end_session(slot);
        if self.r.chance(50) {
            let block = (self.desk.tables.clock / EPOCH + 1) * EPOCH;
            self.push(Call::Advance { block });
        }
        if self.r.chance(50) {
            self.push(Call::Delete { account, volume });
        }
    }

    /// Deletes a volume, looks, and brings it back or lets it be collected.
    fn lose_volume(&mut self) {
        let volume = self.volume();
        let account = self.owner(volume);
        let clock = self.desk.tables.clock;
        self.push(Call::Delete { account, volume });
        self.look();
        let back = self.r.chance(50);
        let days = [clock + EPOCH, clock + KEPT_DELETED - 1, clock + KEPT_DELETED];
        for block in days {
            if back && block == clock + KEPT_DELETED {
                self.push(Call::Undelete { account, volume });
            }
            self.push(Call::Advance { block });
        }
        self.refill();
    }
}

// Journals.

/// A whole journal of about `most` calls at the program's rate, cut to the longest length. Its version goes by the seed.
pub fn whole_journal(seed: u64, most: usize) -> Vec<u8> {
    cut_journal(seed, most, journal::MOST, Texts::for_seed(seed))
}

/// The records of a history that fit in a journal of `longest` bytes.
fn cut_journal(seed: u64, most: usize, longest: usize, texts: Texts) -> Vec<u8> {
    let version = texts.version().byte();
    let mut journal = vec![version];
    for call in history(seed, RATE, most, texts) {
        // Every text made here fits the version and every mode is known.
        let record = journal::write_record(version, &call, usize::MAX).unwrap();
        if journal.len() + record.len() <= longest {
            journal.extend(record);
        }
    }
    journal
}

/// A whole journal whose version and length go by the seed.
pub fn journal_for(seed: u64) -> Vec<u8> {
    journal_of(seed, Texts::for_seed(seed))
}

/// A whole journal whose length goes by the seed: short, of a thousand calls, nearly as long as a journal may be,
/// or exactly that long.
pub fn journal_of(seed: u64, texts: Texts) -> Vec<u8> {
    match seed % 8 {
        0 => cut_journal(seed, 60, journal::MOST, texts),
        1..=3 => cut_journal(seed, 1_000, journal::MOST, texts),
        4..=6 => cut_journal(seed, 4_000, journal::MOST, texts),
        _ => {
            let mut journal = cut_journal(seed, 4_000, journal::MOST - 40, texts);
            pad_to(&mut journal, journal::MOST);
            journal
        }
    }
}

/// A checksum of a journal (64-bit FNV-1a), so that the journals made by two versions of this code can be compared.
pub fn checksum(journal: &[u8]) -> u64 {
    let step = |sum: u64, byte: &u8| (sum ^ u64::from(*byte)).wrapping_mul(0x100_0000_01B3);
    journal.iter().fold(0xCBF2_9CE4_8422_2325, step)
}

/// A journal that is whole, or damaged in one place.
pub fn any_journal(seed: u64, most: usize) -> Vec<u8> {
    let mut r = Random::new(seed ^ 0xA5A5);
    let journal = whole_journal(seed, most);
    if r.chance(60) {
        return journal;
    }
    damaged_journal(&mut r, journal)
}

/// Records of abandon (4 bytes) and heartbeat (7 bytes) up to a length.
fn pad_to(journal: &mut Vec<u8>, length: usize) {
    while journal.len() + 28 < length {
        journal.extend([0, 2, 0x0C, 3]);
    }
    while !(length - journal.len()).is_multiple_of(4) && journal.len() + 7 <= length {
        journal.extend([0, 5, 0x10, 0, 0, 0, 1]);
    }
    while journal.len() + 4 <= length {
        journal.extend([0, 2, 0x0C, 4]);
    }
}

/// Where the whole records lie, with their lengths, up to the first that does not fit.
pub fn records(journal: &[u8]) -> Vec<Range<usize>> {
    let next = |start: usize| {
        let length = journal.get(start..start + 2)?;
        let end = start + 2 + usize::from(u16::from_be_bytes([length[0], length[1]]));
        (end <= journal.len()).then_some(start..end)
    };
    std::iter::successors(next(1), |record| next(record.end)).collect()
}

/// A journal with one or two kinds of damage.
pub fn damaged_journal(r: &mut Random, whole: Vec<u8>) -> Vec<u8> {
    let mut journal = whole;
    damage(r, &mut journal);
    if r.chance(15) {
        damage(r, &mut journal);
    }
    journal
}

/// What `damage` does, by the number that it gives.
pub const DAMAGES: [&str; 29] = [
    "bit changed",
    "byte changed",
    "cut anywhere",
    "byte put in",
    "byte taken out",
    "version changed",
    "emptied",
    "byte at the end",
    "record of length 0 at the end",
    "length one more",
    "length one less",
    "length changed",
    "kind changed",
    "made longer than a journal",
    "unknown cap byte or mode at the end",
    "cut at a record's start or in its length",
    "two records joined under one length",
    "record repeated",
    "record taken out",
    "two records exchanged",
    "record at the front",
    "record cut, its length too",
    "record made longer, its length too",
    "bytes of one record in another",
    "version 01 for 02, or 02 for 01",
    "version 00 or 03",
    "text's length changed",
    "text exchanged for one of another length",
    "text of version 02 longer than 1,024",
];

/// Damages a journal in one place. Gives the place in DAMAGES.
pub fn damage(r: &mut Random, journal: &mut Vec<u8>) -> usize {
    let found = records(journal);
    if journal.len() < 2 || found.is_empty() {
        journal.push(r.below(256) as u8);
        return 7;
    }
    let at = r.index(journal.len());
    let (one, other) = (r.pick(&found).clone(), r.pick(&found).clone());
    let start = one.start;
    let kind = r.index(DAMAGES.len());
    match kind {
        0 => journal[at] ^= 1 << r.below(8),
        1 => journal[at] = r.below(256) as u8,
        2 => journal.truncate(at),
        3 => journal.insert(at, r.below(256) as u8),
        4 => {
            journal.remove(at);
        }
        5 => journal[0] = r.below(256) as u8,
        6 => journal.clear(),
        7 => journal.push(r.below(256) as u8),
        8 => journal.extend([0, 0]),
        9 => journal[start + 1] = journal[start + 1].wrapping_add(1),
        10 => journal[start + 1] = journal[start + 1].wrapping_sub(1),
        11 => journal[start + r.index(2)] = r.below(256) as u8,
        12 => {
            if let Some(byte) = journal.get_mut(start + 2) {
                *byte = if r.chance(50) { *r.pick(&[0, 0x11, 0xFF]) } else { r.below(17) as u8 };
            }
        }
        13 => journal.resize(journal::MOST + 1 + r.index(3), r.below(256) as u8),
        14 => unknown_cap_or_mode(r, journal),
        15 => journal.truncate(start + r.index(3)),
        16 => join_records(journal, start),
        17 => {
            let copy = journal[one].to_vec();
            journal.splice(other.start..other.start, copy);
        }
        18 => {
            journal.drain(one);
        }
        19 => exchange(journal, one, other),
        20 => {
            let copy = journal[one.clone()].to_vec();
            journal.drain(one);
            journal.splice(1..1, copy);
        }
        21 => resize_record(journal, one, r.below(4) as usize, &[]),
        22 => {
            let more = vec![r.below(256) as u8; r.between(1, 3) as usize];
            resize_record(journal, one, usize::MAX, &more);
        }
        23 => {
            let bytes = journal[other].to_vec();
            let count = bytes.len().min(one.len()) - 2;
            let from = r.index(count + 1);
            journal[start + 2 + from..start + 2 + count]
                .copy_from_slice(&bytes[2 + from..][..count - from]);
        }
        24 => journal[0] = if journal[0] == 1 { 2 } else { 1 },
        25 => journal[0] = *r.pick(&[0, 3]),
        _ => return damage_text_field(r, journal, kind),
    }
    kind
}

/// Damages a text's length, or the text with the lengths before it. Gives the place in DAMAGES.
fn damage_text_field(r: &mut Random, journal: &mut Vec<u8>, kind: usize) -> usize {
    let version = journal::version(journal).unwrap_or(Version::One);
    let text_of = |record| text_field(version, journal, record);
    let found: Vec<TextField> = records(journal).into_iter().filter_map(text_of).collect();
    if found.is_empty() {
        journal.push(r.below(256) as u8);
        return 7;
    }
    let text = r.pick(&found);
    match (kind, version) {
        (26, _) => {
            let (old, any) = (text.bytes.len(), r.index(1 << (8 * version.width())));
            let near = [old + 1, old.saturating_sub(1), old ^ 256];
            let edges = [0, 1, 255, 256, 512, 1_024, 1_025, any];
            let length = if r.chance(50) { *r.pick(&near) } else { *r.pick(&edges) };
            set_number(&mut journal[text.length.clone()], length);
            26
        }
        (28, Version::Two) => {
            exchange_text(journal, text, *r.pick(&[1_025, 1_025, 1_026, 1_280, 2_000, 30_000]));
            28
        }
        _ => {
            let fits = |length: &usize| *length <= version.longest_text();
            let lengths: Vec<usize> = TEXT_EDGES.into_iter().filter(fits).collect();
            exchange_text(journal, text, *r.pick(&lengths));
            27
        }
    }
}

/// Where the text of a record stands in its journal.
struct TextField {
    record: Range<usize>,
    length: Range<usize>,
    bytes: Range<usize>,
}

/// The text of a record, where its kind has one and it lies in the record.
fn text_field(version: Version, journal: &[u8], record: Range<usize>) -> Option<TextField> {
    let body = &journal[record.start + 2..record.end];
    let before = match body.first()? {
        0x02 => 1 + 32,
        0x06 | 0x0D => 1 + 32 + 4,
        0x07 | 0x0E => 1 + 4,
        0x0A => 1 + 1,
        _ => return None,
    };
    let length = body.get(before..before + version.width())?;
    let count = length.iter().fold(0, |high, low| high << 8 | usize::from(*low));
    let start = record.start + 2 + before;
    let first = start + version.width();
    let field = TextField { length: start..first, bytes: first..first + count, record };
    (field.bytes.end <= field.record.end).then_some(field)
}

/// Puts a text of this length in the place of another, and sets its length and its record's by it.
fn exchange_text(journal: &mut Vec<u8>, text: &TextField, length: usize) {
    let record = text.record.len() - text.bytes.len() + length - 2;
    journal.splice(text.bytes.clone(), vec![b'p'; length]);
    set_number(&mut journal[text.length.clone()], length);
    set_length(journal, text.record.start, record);
}

/// The last bytes of a number, big-endian, as many as there are places.
fn set_number(places: &mut [u8], number: usize) {
    let bytes = number.to_be_bytes();
    places.copy_from_slice(&bytes[bytes.len() - places.len()..]);
}

/// Takes the length before the record after this one away, and counts its bytes to this one.
fn join_records(journal: &mut Vec<u8>, start: usize) {
    let found = records(&journal[..]);
    let mut after = found.iter().skip_while(|record| record.start != start);
    if let (Some(one), Some(next)) = (after.next().cloned(), after.next().cloned()) {
        journal.drain(next.start..next.start + 2);
        set_length(journal, start, one.len() + next.len() - 4);
    }
}

/// Keeps at most `kept` bytes of a record after its length, adds `more`, and sets the length by it.
fn resize_record(journal: &mut Vec<u8>, record: Range<usize>, kept: usize, more: &[u8]) {
    let end = record.end.min((record.start + 2).saturating_add(kept));
    journal.splice(end..record.end, more.iter().copied());
    set_length(journal, record.start, end - record.start - 2 + more.len());
}

fn set_length(journal: &mut [u8], start: usize, length: usize) {
    set_number(&mut journal[start..start + 2], length);
}

fn exchange(journal: &mut Vec<u8>, one: Range<usize>, other: Range<usize>) {
    let (first, second) = if one.start <= other.start { (one, other) } else { (other, one) };
    if first.start == second.start {
        return;
    }
    let (front, back) = (journal[first.clone()].to_vec(), journal[second.clone()].to_vec());
    journal.splice(second, front);
    journal.splice(first, back);
}

/// A create with an unknown cap byte, or an attenuate with an unknown mode, at the end.
fn unknown_cap_or_mode(r: &mut Random, journal: &mut Vec<u8>) {
    let version = journal::version(journal).unwrap_or(Version::One);
    let byte = if r.chance(50) { 2 } else { r.between(2, 255) as u8 };
    // How many bytes come after the byte in its record.
    let (call, after, byte) = if r.chance(50) {
        let (account, name, cap) = ([0; 32], b"n".to_vec(), Cap::Unlimited);
        (Call::Create { account, name, k: 2, m: 1, cap }, 0, byte)
    } else {
        let scope = Scope { prefix: vec![], mode: 0, cap: Cap::Unlimited, from: 0, until: 0 };
        (Call::Attenuate { token: 1, scope }, 1 + 8 + 8, byte.max(3))
    };
    // The text has a byte at most, and the mode is known.
    journal.extend(journal::write_record(version.byte(), &call, usize::MAX).unwrap());
    let place = journal.len() - 1 - after;
    journal[place] = byte;
}
