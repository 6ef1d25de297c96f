//! A model of the storage desk, written from the rules alone.
//!
//! It stands on no proved code and shares no definition with it,
//! so that a difference between the two points at a mistake in one of them.

pub mod amount;
pub mod array_desk;
pub mod call;
pub mod check;
pub mod desk;
pub mod example;
pub mod journal;
pub mod layout;
pub mod random;
pub mod second_list;
pub mod settings;
pub mod survey;

/// Refusal numbers.
pub mod refusal {
    pub const BAD: u32 = 1;
    pub const NO_VOLUME: u32 = 2;
    pub const NOT_OWNER: u32 = 3;
    pub const NO_TOKEN: u32 = 4;
    pub const WINDOW: u32 = 5;
    pub const MODE: u32 = 6;
    pub const PREFIX: u32 = 7;
    pub const STATE: u32 = 8;
    pub const CONFLICT: u32 = 9;
    pub const QUOTA: u32 = 10;
    pub const SIZE: u32 = 11;
    pub const ROOM: u32 = 12;
    pub const RENT: u32 = 13;
    pub const NO_PLACE: u32 = 14;
    pub const NO_ENTRY: u32 = 15;
    pub const CLOCK: u32 = 16;
    pub const WIDENS: u32 = 17;
    pub const DEEP: u32 = 18;
    pub const SESSION: u32 = 19;
    pub const TOO_MUCH: u32 = 20;
    pub const SPENT: u32 = 21;
    pub const TEXT: u32 = 22;
    pub const NOT_WHOLE: u32 = 23;
    pub const TOO_LARGE: u32 = 24;
    pub const NAME_TAKEN: u32 = 25;
    pub const NO_RELAY: u32 = 26;
    pub const RECORD: u32 = 27;
    pub const VERSION: u32 = 28;
}
