//! Where the answers and the picture go.

use std::fs::{self, File};
use std::io::{self, Read, Write};
use std::os::fd::AsFd;
use std::os::unix::fs::MetadataExt;
use std::path::Path;

use crate::failure::Failure;

/// How far into a file to look for what makes it an SVG.
const SVG_PROLOGUE: u64 = 4_096;

/// Prints, and does not mind a reader that has seen enough.
pub fn print(output: &str) -> Result<(), Failure> {
    let mut standard = io::stdout().lock();
    let written = standard
        .write_all(output.as_bytes())
        .and_then(|()| standard.flush());
    match written {
        Err(error) if error.kind() != io::ErrorKind::BrokenPipe => {
            Err(Failure::Output(format!("cannot write the output: {error}")))
        }
        _ => Ok(()),
    }
}

/// Says something to people. Where nobody can be told, the status still tells.
pub fn tell(message: &str) {
    let _ = writeln!(io::stderr(), "shelfctl: {message}");
}

/// Refuses standard output that is added to the input itself.
pub fn may_print(input: &File) -> Result<(), Failure> {
    let standard = io::stdout().as_fd().try_clone_to_owned();
    let output = standard.and_then(|standard| File::from(standard).metadata());
    match output {
        Ok(output) if is_input(&output, input) => {
            Err(Failure::Usage("the output is the input".to_string()))
        }
        _ => Ok(()),
    }
}

/// Refuses a picture in the place of the input, and in that of any file but a
/// picture unless it is forced. What is no file, as a pipe, loses nothing.
pub fn may_draw(picture: &Path, input: &File, force: bool) -> Result<(), Failure> {
    let Ok(old) = fs::metadata(picture) else {
        return Ok(());
    };
    let name = picture.display();
    if is_input(&old, input) {
        return Err(Failure::Usage(format!("{name} is the input")));
    }
    if old.is_file() && !force && !holds_svg(picture) {
        let message = format!("{name} is there and is no SVG; --force overwrites it");
        return Err(Failure::Usage(message));
    }
    Ok(())
}

/// A file is known by its device and inode, whatever name it goes by.
fn is_input(output: &fs::Metadata, input: &File) -> bool {
    let same = |input: fs::Metadata| (input.dev(), input.ino()) == (output.dev(), output.ino());
    output.is_file() && input.metadata().is_ok_and(same)
}

fn holds_svg(file: &Path) -> bool {
    let mut start = Vec::new();
    let read = File::open(file).and_then(|file| file.take(SVG_PROLOGUE).read_to_end(&mut start));
    read.is_ok() && starts_svg(&String::from_utf8_lossy(&start))
}

/// Whether the first element, after what may come before it, is `svg`.
fn starts_svg(text: &str) -> bool {
    let mut rest = text.trim_start_matches('\u{feff}').trim_start();
    for (start, end) in [("<?", "?>"), ("<!--", "-->"), ("<!", ">"), ("<!--", "-->")] {
        if rest.starts_with(start) {
            let after = rest.split_once(end).map_or("", |(_, after)| after);
            rest = after.trim_start();
        }
    }
    rest.strip_prefix("<svg")
        .is_some_and(|rest| rest.starts_with([' ', '\t', '\r', '\n', '>', '/']))
}

pub fn write_picture(picture: &Path, drawn: &str) -> Result<(), Failure> {
    fs::write(picture, drawn).map_err(|error| {
        let name = picture.display();
        Failure::Output(format!("cannot write {name}: {error}"))
    })
}

#[cfg(test)]
mod tests {
    use super::*;

    #[test]
    fn an_svg_is_known_by_its_first_element() {
        for svg in [
            "<svg xmlns=\"http://www.w3.org/2000/svg\">",
            "\u{feff}<?xml version=\"1.0\"?>\n<!-- drawn -->\n<!DOCTYPE svg>\n<svg>",
        ] {
            assert!(starts_svg(svg), "{svg}");
        }
        for other in [
            "",
            "open 60 4 6",
            "<html><svg>",
            "<svgs>",
            "<!-- <svg>",
            "<?",
        ] {
            assert!(!starts_svg(other), "{other}");
        }
    }
}
