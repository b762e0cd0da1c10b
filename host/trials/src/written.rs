//! What a call leaves in the bytes that are lent for a vault sheet.

use crate::sheet::MOST_BYTES;

/// Bytes before and after the lent ones that no call may touch.
const GUARD: usize = 64;
/// As much of a line as is shown.
const SHOWN: usize = 40;

/// The length that was returned, `None` if it was outside the interface, and
/// every lent byte with the bytes around them.
#[derive(Clone, PartialEq, Eq)]
pub struct Written {
    length: Option<usize>,
    bytes: Vec<u8>,
}

impl Written {
    /// What the call leaves, where `fill` decides what stands there before.
    pub fn by(fill: u64, call: impl FnOnce(&mut [u8; MOST_BYTES]) -> Option<usize>) -> Self {
        // No text has such a byte, so every byte that is written shows.
        let untouched = fill as u8 | 0x80;
        let mut bytes = vec![untouched; GUARD + MOST_BYTES + GUARD];
        let lent = &mut bytes[GUARD..GUARD + MOST_BYTES];
        let length = call(lent.try_into().expect("so many are lent"));
        Self { length, bytes }
    }

    /// This text at the front, and all other bytes untouched.
    pub fn text(fill: u64, text: &str) -> Self {
        Self::by(fill, |lent| {
            lent[..text.len()].copy_from_slice(text.as_bytes());
            Some(text.len())
        })
    }

    /// The text that the call says it has written, if it is one.
    pub fn as_text(&self) -> Option<&str> {
        let lent = &self.bytes[GUARD..GUARD + MOST_BYTES];
        std::str::from_utf8(lent.get(..self.length?)?).ok()
    }

    /// The bytes from this place to the end of its line.
    fn line_from(&self, place: usize) -> impl std::fmt::Display + '_ {
        let mut lines = self.bytes[place..].split(|&byte| byte == b'\n');
        let line = lines.next().unwrap_or_default();
        line[..line.len().min(SHOWN)].escape_ascii()
    }
}

/// The first byte in which two of them differ, or else their lengths.
pub fn difference(one: &Written, other: &Written) -> String {
    let mut pairs = one.bytes.iter().zip(&other.bytes);
    match pairs.position(|(one, other)| one != other) {
        Some(place) => {
            let byte = place as i64 - GUARD as i64;
            let (one, other) = (one.line_from(place), other.line_from(place));
            format!("byte {byte} differs, \"{one}\" against \"{other}\"")
        }
        None if one.length == other.length => "no difference".to_string(),
        None => format!("length {:?} against {:?}", one.length, other.length),
    }
}
