//! Reading an input, just past its limit and no further.

use std::fs::File;
use std::io::{self, Read};
use std::os::fd::AsFd;

use crate::arguments::Place;
use crate::failure::Failure;
use crate::format::{self, Format};
use crate::source::{Source, MAX_STREAM};
use crate::text::{self, BadText};

/// No text or hex input may be longer.
const MAX_TEXT: usize = 4 << 20;

pub struct Input {
    pub file: File,
    name: String,
}

impl Input {
    pub fn open(place: &Place) -> Result<Self, Failure> {
        let (name, file) = match place {
            Place::Standard => ("standard input".to_string(), standard_input()),
            Place::File(path) => (path.display().to_string(), File::open(path)),
        };
        match file {
            Ok(file) => Ok(Self { file, name }),
            Err(error) => Err(cannot_read(&name, &error)),
        }
    }

    /// The content of this input, in the format given or else its own.
    pub fn content(mut self, format: Option<Format>) -> Result<Content, Failure> {
        let mut bytes = Vec::new();
        self.read_to(MAX_STREAM + 1, &mut bytes)?;
        let raw = format == Some(Format::Raw);
        if raw || (format.is_none() && !format::starts_text(&bytes)) {
            let format = Format::Raw;
            return Ok(Content { bytes, format });
        }
        self.text(&mut bytes)?;
        let format = format.unwrap_or_else(|| Format::of_content(&bytes));
        Ok(Content { bytes, format })
    }

    /// The rest of a text, after the bytes already read.
    pub fn text(&mut self, bytes: &mut Vec<u8>) -> Result<(), Failure> {
        self.read_to(MAX_TEXT + 1, bytes)?;
        if bytes.len() > MAX_TEXT {
            let message = format!("{} is longer than {MAX_TEXT} bytes", self.name);
            return Err(Failure::Input(message));
        }
        Ok(())
    }

    fn read_to(&mut self, length: usize, bytes: &mut Vec<u8>) -> Result<(), Failure> {
        let more = (length - bytes.len()) as u64;
        match (&mut self.file).take(more).read_to_end(bytes) {
            Ok(_) => Ok(()),
            Err(error) => Err(cannot_read(&self.name, &error)),
        }
    }
}

/// All of an input that is needed, and the form that it has.
pub struct Content {
    pub bytes: Vec<u8>,
    pub format: Format,
}

impl Content {
    /// The stream that it is.
    pub fn stream(self) -> Result<Source, Failure> {
        match self.format {
            Format::Text => text::read_text(&self.bytes),
            Format::Hex => text::read_hex(&self.bytes).map(Source::raw),
            Format::Raw => Ok(Source::raw(self.bytes)),
        }
        .map_err(bad_text)
    }
}

/// Unbuffered, so that what is past the limit is left where it is.
fn standard_input() -> io::Result<File> {
    Ok(io::stdin().as_fd().try_clone_to_owned()?.into())
}

pub fn bad_text(BadText { line, message }: BadText) -> Failure {
    Failure::Input(format!("line {line}: {message}"))
}

fn cannot_read(name: &str, error: &io::Error) -> Failure {
    Failure::Input(format!("cannot read {name}: {error}"))
}
