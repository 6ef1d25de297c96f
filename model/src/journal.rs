//! The journal: one version byte, then records of u16 length, kind and fields, big-endian.
//!
//! The version says how texts stand in the records: after a length of one byte in version 01, of two bytes in version 02.

use crate::amount::Cap;
use crate::call::{number, value, Bytes32, Call, Scope};
use crate::desk::{Desk, RATE};
use crate::refusal::{BAD, RECORD, ROOM, TOO_LARGE, VERSION};

/// The longest journal, its version byte included.
pub const MOST: usize = 65_536;

/// The versions of a journal.
#[derive(Clone, Copy, Debug, PartialEq, Eq)]
pub enum Version {
    One,
    Two,
}

impl Version {
    pub const ALL: [Version; 2] = [Version::One, Version::Two];

    /// The version of a version byte.
    pub fn of(byte: u8) -> Option<Version> {
        Version::ALL.into_iter().find(|version| version.byte() == byte)
    }

    /// The first version with texts as long as this.
    pub fn holding(length: usize) -> Option<Version> {
        Version::ALL.into_iter().find(|version| length <= version.longest_text())
    }

    pub fn byte(self) -> u8 {
        match self {
            Version::One => 0x01,
            Version::Two => 0x02,
        }
    }

    /// How many bytes the length of a text takes.
    pub fn width(self) -> usize {
        match self {
            Version::One => 1,
            Version::Two => 2,
        }
    }

    /// How many bytes a text has at most.
    pub fn longest_text(self) -> usize {
        match self {
            Version::One => 255,
            Version::Two => 1_024,
        }
    }
}

/// Writes the fields of a record.
struct Writer {
    version: Version,
    written: Vec<u8>,
}

impl Writer {
    fn put(mut self, bytes: &[u8]) -> Writer {
        self.written.extend(bytes);
        self
    }

    fn u8(self, n: u8) -> Writer {
        self.put(&[n])
    }

    fn u32(self, n: u32) -> Writer {
        self.put(&n.to_be_bytes())
    }

    fn u64(self, n: u64) -> Writer {
        self.put(&n.to_be_bytes())
    }

    /// The length, in as many bytes as the version has for it, and the bytes.
    fn text(self, text: &[u8]) -> Result<Writer, u32> {
        if text.len() > self.version.longest_text() {
            return Err(BAD);
        }
        let length = text.len().to_be_bytes();
        let first = length.len() - self.version.width();
        Ok(self.put(&length[first..]).put(text))
    }

    fn cap(self, cap: Cap) -> Writer {
        match cap {
            Cap::Unlimited => self.u8(0),
            Cap::Bytes(n) => self.u8(1).u64(n),
        }
    }

    fn scope(self, scope: &Scope) -> Result<Writer, u32> {
        if scope.mode > 2 {
            return Err(BAD);
        }
        let writer = self.text(&scope.prefix)?.u8(scope.mode);
        Ok(writer.cap(scope.cap).u64(scope.from).u64(scope.until))
    }
}

/// Kind and fields of a call.
fn kind_and_fields(version: Version, call: &Call) -> Result<Vec<u8>, u32> {
    let w = Writer { version, written: vec![call.kind()] };
    let w = match call {
        Call::Advance { block } => w.u64(*block),
        Call::Create { account, name, k, m, cap } => {
            w.put(account).text(name)?.u8(*k).u8(*m).cap(*cap)
        }
        Call::Deposit { volume, coins } => w.u32(*volume).u64(*coins),
        Call::Delete { account, volume } => w.put(account).u32(*volume),
        Call::Undelete { account, volume } => w.put(account).u32(*volume),
        Call::Grant { account, volume, scope } => w.put(account).u32(*volume).scope(scope)?,
        Call::Attenuate { token, scope } => w.u32(*token).scope(scope)?,
        Call::Revoke { account, token } => w.put(account).u32(*token),
        Call::Open { slot, token } => w.u8(*slot).u32(*token),
        Call::Stage { slot, path, size, hash } => w.u8(*slot).text(path)?.u64(*size).put(hash),
        Call::Commit { slot } => w.u8(*slot),
        Call::Abandon { slot } => w.u8(*slot),
        Call::Remove { account, volume, path } => w.put(account).u32(*volume).text(path)?,
        Call::Look { token, path } => w.u32(*token).text(path)?,
        Call::Register { capacity } => w.u64(*capacity),
        Call::Heartbeat { relay } => w.u32(*relay),
    };
    Ok(w.written)
}

/// One record of a journal with this version byte, the record's length included, that fits a buffer of `room` bytes:
/// 1 for an unknown version and for what the reader cannot give, then 12.
pub fn write_record(version: u8, call: &Call, room: usize) -> Result<Vec<u8>, u32> {
    let version = Version::of(version).ok_or(BAD)?;
    let body = kind_and_fields(version, call)?;
    let length = u16::try_from(body.len()).map_err(|_| BAD)?;
    let mut record = length.to_be_bytes().to_vec();
    record.extend(body);
    if record.len() > room {
        return Err(ROOM);
    }
    Ok(record)
}

/// The whole journal of a list of calls.
pub fn write_journal(version: Version, calls: &[Call]) -> Result<Vec<u8>, u32> {
    let mut journal = vec![version.byte()];
    for call in calls {
        journal.extend(write_record(version.byte(), call, usize::MAX)?);
    }
    Ok(journal)
}

/// Reads from the front of what is left.
struct Reader<'a> {
    version: Version,
    left: &'a [u8],
}

impl<'a> Reader<'a> {
    fn take(&mut self, count: usize) -> Result<&'a [u8], u32> {
        let (front, rest) = self.left.split_at_checked(count).ok_or(RECORD)?;
        self.left = rest;
        Ok(front)
    }

    fn u8(&mut self) -> Result<u8, u32> {
        Ok(self.take(1)?[0])
    }

    fn u16(&mut self) -> Result<u16, u32> {
        Ok(u16::from_be_bytes(self.take(2)?.try_into().unwrap()))
    }

    fn u32(&mut self) -> Result<u32, u32> {
        Ok(u32::from_be_bytes(self.take(4)?.try_into().unwrap()))
    }

    fn u64(&mut self) -> Result<u64, u32> {
        Ok(u64::from_be_bytes(self.take(8)?.try_into().unwrap()))
    }

    fn bytes(&mut self) -> Result<Bytes32, u32> {
        Ok(self.take(32)?.try_into().unwrap())
    }

    fn text(&mut self) -> Result<Vec<u8>, u32> {
        let length = self.take(self.version.width())?;
        let length = length.iter().fold(0, |high, low| high << 8 | usize::from(*low));
        if length > self.version.longest_text() {
            return Err(RECORD);
        }
        Ok(self.take(length)?.to_vec())
    }

    fn cap(&mut self) -> Result<Cap, u32> {
        match self.u8()? {
            0 => Ok(Cap::Unlimited),
            1 => Ok(Cap::Bytes(self.u64()?)),
            _ => Err(RECORD),
        }
    }

    fn mode(&mut self) -> Result<u8, u32> {
        self.u8().and_then(|mode| if mode <= 2 { Ok(mode) } else { Err(RECORD) })
    }

    fn scope(&mut self) -> Result<Scope, u32> {
        Ok(Scope {
            prefix: self.text()?,
            mode: self.mode()?,
            cap: self.cap()?,
            from: self.u64()?,
            until: self.u64()?,
        })
    }
}

fn read_fields(kind: u8, r: &mut Reader) -> Result<Call, u32> {
    Ok(match kind {
        0x01 => Call::Advance { block: r.u64()? },
        0x02 => Call::Create {
            account: r.bytes()?,
            name: r.text()?,
            k: r.u8()?,
            m: r.u8()?,
            cap: r.cap()?,
        },
        0x03 => Call::Deposit { volume: r.u32()?, coins: r.u64()? },
        0x04 => Call::Delete { account: r.bytes()?, volume: r.u32()? },
        0x05 => Call::Undelete { account: r.bytes()?, volume: r.u32()? },
        0x06 => Call::Grant { account: r.bytes()?, volume: r.u32()?, scope: r.scope()? },
        0x07 => Call::Attenuate { token: r.u32()?, scope: r.scope()? },
        0x08 => Call::Revoke { account: r.bytes()?, token: r.u32()? },
        0x09 => Call::Open { slot: r.u8()?, token: r.u32()? },
        0x0A => Call::Stage { slot: r.u8()?, path: r.text()?, size: r.u64()?, hash: r.bytes()? },
        0x0B => Call::Commit { slot: r.u8()? },
        0x0C => Call::Abandon { slot: r.u8()? },
        0x0D => Call::Remove { account: r.bytes()?, volume: r.u32()?, path: r.text()? },
        0x0E => Call::Look { token: r.u32()?, path: r.text()? },
        0x0F => Call::Register { capacity: r.u64()? },
        0x10 => Call::Heartbeat { relay: r.u32()? },
        _ => return Err(RECORD),
    })
}

/// Kind and fields, exactly as long as the record.
fn read_body(version: Version, body: &[u8]) -> Result<Call, u32> {
    let mut reader = Reader { version, left: body };
    let kind = reader.u8()?;
    let call = read_fields(kind, &mut reader)?;
    if !reader.left.is_empty() {
        return Err(RECORD);
    }
    Ok(call)
}

fn read_record(reader: &mut Reader) -> Result<Call, u32> {
    let length = reader.u16()?;
    read_body(reader.version, reader.take(usize::from(length))?)
}

/// The version of a journal; 28 where its first byte is missing or another.
pub fn version(journal: &[u8]) -> Result<Version, u32> {
    journal.first().and_then(|byte| Version::of(*byte)).ok_or(VERSION)
}

/// The calls before the first fault, and the fault's number if there is one.
pub fn read_journal(journal: &[u8]) -> (Vec<Call>, Option<u32>) {
    if journal.len() > MOST {
        return (Vec::new(), Some(TOO_LARGE));
    }
    let version = match version(journal) {
        Ok(version) => version,
        Err(fault) => return (Vec::new(), Some(fault)),
    };
    let mut reader = Reader { version, left: &journal[1..] };
    let mut calls = Vec::new();
    while !reader.left.is_empty() {
        match read_record(&mut reader) {
            Ok(call) => calls.push(call),
            Err(fault) => return (calls, Some(fault)),
        }
    }
    (calls, None)
}

/// What the program prints for a journal, each line with its newline.
pub fn replay(journal: &[u8]) -> String {
    let (calls, fault) = read_journal(journal);
    let mut desk = Desk::fresh(RATE);
    let mut lines = String::from("desk 1\n");
    for (place, call) in calls.iter().enumerate() {
        let answer = desk.run(call);
        lines += &format!("{} {} {}\n", place + 1, number(&answer), value(&answer));
    }
    lines += &match fault {
        Some(fault) => format!("stop {} {fault}\n", calls.len()),
        None => format!("end {}\n", calls.len()),
    };
    lines
}
