//! The three forms of an input, told by its name or its content.

use std::path::Path;

use crate::text;

#[derive(Debug, Clone, Copy, PartialEq, Eq)]
pub enum Format {
    Text,
    Hex,
    Raw,
}

impl Format {
    /// What the ending of the name says, in any case of letters.
    pub fn of_name(file: &Path) -> Option<Self> {
        let ending = file.extension()?.to_str()?.to_ascii_lowercase();
        match ending.as_str() {
            "txt" | "text" => Some(Self::Text),
            "hex" => Some(Self::Hex),
            "bin" | "raw" => Some(Self::Raw),
            _ => None,
        }
    }

    /// What the content says. An accepted stream starts with 01 or 11, which no
    /// text has, so it is never taken for one.
    pub fn of_content(content: &[u8]) -> Self {
        if content.is_empty() || !is_text(content) {
            return Self::Raw;
        }
        let mut digits = text::lines(content).flat_map(|(_, line)| words(line));
        match digits.next() {
            Some(first) if is_hex(first) && digits.all(is_hex) => Self::Hex,
            _ => Self::Text,
        }
    }
}

fn words(line: &[u8]) -> impl Iterator<Item = &[u8]> {
    line.split(u8::is_ascii_whitespace)
        .filter(|word| !word.is_empty())
}

fn is_hex(word: &[u8]) -> bool {
    word.iter().all(u8::is_ascii_hexdigit)
}

/// Whether the bytes are UTF-8 without control bytes but those of white space.
pub fn is_text(bytes: &[u8]) -> bool {
    std::str::from_utf8(bytes).is_ok() && !bytes.iter().any(is_control)
}

/// The same of the start of an input, which may end within a character.
pub fn starts_text(bytes: &[u8]) -> bool {
    let readable = match std::str::from_utf8(bytes) {
        Ok(_) => true,
        Err(error) => error.error_len().is_none(),
    };
    readable && !bytes.iter().any(is_control)
}

fn is_control(byte: &u8) -> bool {
    byte.is_ascii_control() && !byte.is_ascii_whitespace()
}

#[cfg(test)]
mod tests {
    use super::*;

    #[test]
    fn names_tell_in_any_case() {
        let of = |name: &str| Format::of_name(Path::new(name));
        assert_eq!(of("a.txt"), Some(Format::Text));
        assert_eq!(of("a.b.TEXT"), Some(Format::Text));
        assert_eq!(of("A.HEX"), Some(Format::Hex));
        assert_eq!(of("a.Bin"), Some(Format::Raw));
        assert_eq!(of("a.raw"), Some(Format::Raw));
        assert_eq!(of("a.dat"), None);
        assert_eq!(of("txt"), None);
    }

    #[test]
    fn content_tells_where_the_name_does_not() {
        let of = |content: &[u8]| Format::of_content(content);
        assert_eq!(of(b""), Format::Raw);
        assert_eq!(of(b"\x01\0\0\0\x3C\0\x04\x06"), Format::Raw);
        assert_eq!(of(b"\x11open 60 4 6"), Format::Raw);
        assert_eq!(of(b"open \x7f"), Format::Raw);
        assert_eq!(of(b"caf\xe9"), Format::Raw);
        assert_eq!(of(b"caf\xc3"), Format::Raw);
        assert_eq!(of(b"01 0000003c\r\n0004\t06 # open\n"), Format::Hex);
        assert_eq!(of(b"\xef\xbb\xbf01"), Format::Hex);
        assert_eq!(of(b"\xef\xbb\xbfopen 60 4 6"), Format::Text);
        assert_eq!(of(b"# caf\xc3\xa9\x0c\n"), Format::Text);
        assert_eq!(of(b" \n"), Format::Text);
    }

    #[test]
    fn a_start_may_end_within_a_character() {
        assert!(starts_text(b"caf\xc3"));
        assert!(!starts_text(b"caf\xc3\xff"));
        assert!(!starts_text(b"\0"));
        assert!(!starts_text(b"\x01open"));
        assert!(!starts_text(b"\x11open"));
    }
}
