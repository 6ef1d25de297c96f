//! Safe functions over the proved static library of the storage desk.
//!
//! `pailorchard.h` says of each C function what it answers and what it leaves in the buffers. What is written is only
//! what was lent, and a refusal writes nothing. The functions that replay a journal need 2 MB of stack.

use std::fmt;

/// The C functions themselves.
pub mod raw {
    extern "C" {
        pub fn pailorchard_replay_room(journal_len: usize) -> usize;
        pub fn pailorchard_replay(
            journal: *const u8,
            journal_len: usize,
            out: *mut u8,
            out_len: usize,
            written: *mut usize,
        ) -> u32;
        pub fn pailorchard_desk_room() -> usize;
        pub fn pailorchard_desk_after(
            journal: *const u8,
            journal_len: usize,
            transcript: *mut u8,
            transcript_len: usize,
            desk: *mut u8,
            desk_len: usize,
            written: *mut usize,
        ) -> u32;
        pub fn pailorchard_read_amount(
            text: *const u8,
            len: usize,
            limited: *mut bool,
            bytes: *mut u64,
        ) -> u32;
        pub fn pailorchard_write_amount(
            limited: bool,
            bytes: u64,
            out: *mut u8,
            out_len: usize,
            written: *mut usize,
        ) -> u32;
        pub fn pailorchard_is_path(text: *const u8, len: usize) -> bool;
        pub fn pailorchard_is_prefix(text: *const u8, len: usize) -> bool;
        pub fn pailorchard_is_name(text: *const u8, len: usize) -> bool;
        pub fn pailorchard_test_desk(
            journal: *const u8,
            journal_len: usize,
            transcript: *mut u8,
            transcript_len: usize,
            times: u64,
        ) -> u64;
    }
}

/// The number of a refusal.
#[derive(Clone, Copy, Debug, PartialEq, Eq)]
pub struct Refusal(pub u32);

impl Refusal {
    /// A plain sentence for the number.
    pub fn sentence(self) -> &'static str {
        match self.0 {
            12 => "the buffer is too short",
            22 => "this is not an amount",
            23 => "this is not a whole number of bytes",
            24 => "this is more than 2^36 bytes",
            _ => "this number is not one of the library's",
        }
    }
}

impl fmt::Display for Refusal {
    fn fmt(&self, f: &mut fmt::Formatter<'_>) -> fmt::Result {
        write!(f, "{} ({})", self.sentence(), self.0)
    }
}

impl std::error::Error for Refusal {}

/// An amount: no limit, or a count of bytes; zero means zero.
#[derive(Clone, Copy, Debug, PartialEq, Eq)]
pub enum Amount {
    Unlimited,
    Bytes(u64),
}

/// A transcript, and the desk after its journal as bytes.
#[derive(Clone, Debug, PartialEq, Eq)]
pub struct After {
    pub transcript: Vec<u8>,
    pub desk: Vec<u8>,
}

fn accepted<T>(number: u32, value: T) -> Result<T, Refusal> {
    match number {
        0 => Ok(value),
        _ => Err(Refusal(number)),
    }
}

// In each call below the pointers and lengths are those of slices and references that live until it returns. A slice's
// pointer is never null, and one that is written is borrowed alone.

/// How many bytes are enough for the transcript of any journal of this length.
pub fn replay_room(journal_len: usize) -> usize {
    // SAFETY: only a number is passed.
    unsafe { raw::pailorchard_replay_room(journal_len) }
}

/// How many bytes the desk takes.
pub fn desk_room() -> usize {
    // SAFETY: nothing is passed.
    unsafe { raw::pailorchard_desk_room() }
}

/// Writes the transcript of a journal, of version 01 or 02, at the start of `out` and gives its length. Refused with 12 where `out` is
/// shorter than `replay_room` of the journal's length.
pub fn replay_into(journal: &[u8], out: &mut [u8]) -> Result<usize, Refusal> {
    let mut written = 0;
    // SAFETY: see above.
    let number = unsafe {
        raw::pailorchard_replay(
            journal.as_ptr(),
            journal.len(),
            out.as_mut_ptr(),
            out.len(),
            &mut written,
        )
    };
    accepted(number, written)
}

/// The transcript of a journal.
pub fn replay(journal: &[u8]) -> Result<Vec<u8>, Refusal> {
    let mut out = vec![0; replay_room(journal.len())];
    let written = replay_into(journal, &mut out)?;
    out.truncate(written);
    Ok(out)
}

/// Writes the transcript of a journal and the desk after it, and gives the transcript's length. Refused with 12 where
/// `transcript` is shorter than `replay_room` of the journal's length, or `desk` than `desk_room`.
pub fn desk_after_into(
    journal: &[u8],
    transcript: &mut [u8],
    desk: &mut [u8],
) -> Result<usize, Refusal> {
    let mut written = 0;
    // SAFETY: see above.
    let number = unsafe {
        raw::pailorchard_desk_after(
            journal.as_ptr(),
            journal.len(),
            transcript.as_mut_ptr(),
            transcript.len(),
            desk.as_mut_ptr(),
            desk.len(),
            &mut written,
        )
    };
    accepted(number, written)
}

/// The transcript of a journal, and the desk after it.
pub fn desk_after(journal: &[u8]) -> Result<After, Refusal> {
    let mut transcript = vec![0; replay_room(journal.len())];
    let mut desk = vec![0; desk_room()];
    let written = desk_after_into(journal, &mut transcript, &mut desk)?;
    transcript.truncate(written);
    Ok(After { transcript, desk })
}

/// Reads a typed amount. Refused with 22, 23 or 24.
pub fn read_amount(text: &[u8]) -> Result<Amount, Refusal> {
    let (mut limited, mut bytes) = (false, 0);
    // SAFETY: see above.
    let number = unsafe {
        raw::pailorchard_read_amount(text.as_ptr(), text.len(), &mut limited, &mut bytes)
    };
    let amount = if limited { Amount::Bytes(bytes) } else { Amount::Unlimited };
    accepted(number, amount)
}

/// Writes an amount at the start of `out` and gives the length of its text. Refused with 24, then 12.
pub fn write_amount(amount: Amount, out: &mut [u8]) -> Result<usize, Refusal> {
    let (limited, bytes) = match amount {
        Amount::Unlimited => (false, 0),
        Amount::Bytes(bytes) => (true, bytes),
    };
    let mut written = 0;
    // SAFETY: see above.
    let number = unsafe {
        raw::pailorchard_write_amount(limited, bytes, out.as_mut_ptr(), out.len(), &mut written)
    };
    accepted(number, written)
}

/// 1 to 512 bytes in 0x21..0x7E whose parts between "/" are not empty, "." or "..".
pub fn is_path(text: &[u8]) -> bool {
    // SAFETY: see above.
    unsafe { raw::pailorchard_is_path(text.as_ptr(), text.len()) }
}

/// Empty, or a path followed by "/", at most 512 bytes in all.
pub fn is_prefix(text: &[u8]) -> bool {
    // SAFETY: see above.
    unsafe { raw::pailorchard_is_prefix(text.as_ptr(), text.len()) }
}

/// 1 to 64 bytes of a-z A-Z 0-9 _ - .
pub fn is_name(text: &[u8]) -> bool {
    // SAFETY: see above.
    unsafe { raw::pailorchard_is_name(text.as_ptr(), text.len()) }
}

/// For the benchmark: replays a journal, tests the desk after it `times` times, and gives how many of the tests it
/// passed. 0 where `transcript` is shorter than `replay_room` of the journal's length.
pub fn test_desk(journal: &[u8], transcript: &mut [u8], times: u64) -> u64 {
    // SAFETY: see above.
    unsafe {
        raw::pailorchard_test_desk(
            journal.as_ptr(),
            journal.len(),
            transcript.as_mut_ptr(),
            transcript.len(),
            times,
        )
    }
}
