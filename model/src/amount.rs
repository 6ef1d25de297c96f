//! Typed amounts: "unlimited", or digits, perhaps a decimal mark and digits, one space, a unit.

use crate::refusal::{NOT_WHOLE, ROOM, TEXT, TOO_LARGE};

/// The largest byte count of a cap.
pub const MOST: u64 = 1 << 36;

/// Either no limit or a byte count; zero means zero.
#[derive(Clone, Copy, Debug, PartialEq, Eq)]
pub enum Cap {
    Unlimited,
    Bytes(u64),
}

impl Cap {
    /// At most 2^36, or no limit.
    pub fn is_allowed(self) -> bool {
        match self {
            Cap::Unlimited => true,
            Cap::Bytes(n) => n <= MOST,
        }
    }

    /// `self` lies within `outer`; "unlimited" only under "unlimited".
    pub fn is_within(self, outer: Cap) -> bool {
        match (self, outer) {
            (_, Cap::Unlimited) => true,
            (Cap::Unlimited, Cap::Bytes(_)) => false,
            (Cap::Bytes(inner), Cap::Bytes(most)) => inner <= most,
        }
    }

    /// `total` passes the cap.
    pub fn is_passed_by(self, total: u128) -> bool {
        match self {
            Cap::Unlimited => false,
            Cap::Bytes(most) => total > u128::from(most),
        }
    }
}

const UNITS: [(&str, u64); 4] = [("GiB", 1 << 30), ("MiB", 1 << 20), ("KiB", 1 << 10), ("B", 1)];

/// Reads an amount. Any bytes may be given.
pub fn read(text: &[u8]) -> Result<Cap, u32> {
    let text = std::str::from_utf8(text).map_err(|_| TEXT)?;
    if text == "unlimited" {
        return Ok(Cap::Unlimited);
    }
    let (figure, unit) = text.split_once(' ').ok_or(TEXT)?;
    let unit = UNITS.iter().find(|u| u.0 == unit).ok_or(TEXT)?.1;
    let (whole, fraction) = match figure.split_once([',', '.']) {
        Some((whole, fraction)) => (whole, Some(fraction)),
        None => (figure, None),
    };
    if !is_digits(whole, 11) || (whole.len() > 1 && whole.starts_with('0')) {
        return Err(TEXT);
    }
    if !fraction.is_none_or(|f| is_digits(f, 9)) {
        return Err(TEXT);
    }
    let fraction = fraction.unwrap_or("");
    // The digits without the mark, over a power of ten: at most 10^20 * 2^30, which fits.
    let digits: u128 = format!("{whole}{fraction}").parse().map_err(|_| TEXT)?;
    let over = 10u128.pow(fraction.len() as u32);
    let bytes = digits * u128::from(unit);
    if !bytes.is_multiple_of(over) {
        return Err(NOT_WHOLE);
    }
    let bytes = bytes / over;
    if bytes > u128::from(MOST) {
        return Err(TOO_LARGE);
    }
    Ok(Cap::Bytes(bytes as u64))
}

/// One to `most` digits and nothing else.
fn is_digits(text: &str, most: usize) -> bool {
    (1..=most).contains(&text.len()) && text.bytes().all(|b| b.is_ascii_digit())
}

/// The text of an amount that fits a buffer of `room` bytes.
pub fn write(cap: Cap, room: usize) -> Result<Vec<u8>, u32> {
    if !cap.is_allowed() {
        return Err(TOO_LARGE);
    }
    let text = match cap {
        Cap::Unlimited => "unlimited".to_string(),
        Cap::Bytes(0) => "0 B".to_string(),
        Cap::Bytes(n) => {
            let unit = UNITS.iter().find(|u| n.is_multiple_of(u.1)).unwrap();
            format!("{} {}", n / unit.1, unit.0)
        }
    };
    if text.len() > room {
        return Err(ROOM);
    }
    Ok(text.into_bytes())
}

/// Writes at the front of the buffer and gives the length. Bytes after the text stay;
/// a refusal writes nothing.
pub fn write_into(cap: Cap, buffer: &mut [u8]) -> Result<usize, u32> {
    let text = write(cap, buffer.len())?;
    buffer[..text.len()].copy_from_slice(&text);
    Ok(text.len())
}
