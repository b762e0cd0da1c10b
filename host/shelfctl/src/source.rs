//! A stream, and where in the input each of its commands was written.

use std::fmt;

/// The program `shelve` takes no longer stream.
pub const MAX_STREAM: usize = 32_768;

pub struct Source {
    pub bytes: Vec<u8>,
    /// Of a text: the offset of each command and its line, in order.
    lines: Option<Vec<(usize, usize)>>,
}

/// A place that the author of the input can find.
#[derive(Debug, Clone, Copy, PartialEq, Eq)]
pub enum Spot {
    Line(usize),
    Byte(usize),
}

impl fmt::Display for Spot {
    fn fmt(&self, f: &mut fmt::Formatter<'_>) -> fmt::Result {
        match self {
            Self::Line(line) => write!(f, "line {line}"),
            Self::Byte(offset) => write!(f, "byte {offset}"),
        }
    }
}

impl Source {
    pub fn raw(bytes: Vec<u8>) -> Self {
        Self { bytes, lines: None }
    }

    pub fn of_text(bytes: Vec<u8>, lines: Vec<(usize, usize)>) -> Self {
        let lines = Some(lines);
        Self { bytes, lines }
    }

    /// Where the command was written that this byte belongs to.
    pub fn spot(&self, offset: usize) -> Spot {
        let Some(lines) = &self.lines else {
            return Spot::Byte(offset);
        };
        let after = lines.partition_point(|&(start, _)| start <= offset);
        Spot::Line(lines[after.saturating_sub(1)].1)
    }

    pub fn is_text(&self) -> bool {
        self.lines.is_some()
    }
}
