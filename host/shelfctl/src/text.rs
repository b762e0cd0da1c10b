//! Streams as people write them: a text of commands, or hex.

use shelf::{StreamBuilder, MAX_CAPACITY, MAX_COMMANDS, MAX_M, MAX_STOCK, MAX_TRAILER, MIN_M};

use crate::format::is_text;
use crate::source::Source;

/// How a stream is opened in a text.
const OPEN: &str = "open capacity stock m [trailer]";

/// What a command can be numbered.
const NUMBERS: Option<(u64, u64)> = Some((1, MAX_COMMANDS as u64));

/// What is wrong with a text, and where.
#[derive(Debug, PartialEq, Eq)]
pub struct BadText {
    /// From 1.
    pub line: usize,
    pub message: String,
}

pub fn bad<T>(line: usize, message: impl Into<String>) -> Result<T, BadText> {
    let message = message.into();
    Err(BadText { line, message })
}

/// The lines of a text, numbered from 1, without their comments and without the
/// mark of UTF-8 that some editors put first.
pub fn lines(text: &[u8]) -> impl Iterator<Item = (usize, &[u8])> {
    let text = text.strip_prefix(b"\xef\xbb\xbf").unwrap_or(text);
    (1..)
        .zip(text.split(|&byte| byte == b'\n'))
        .map(|(number, line)| {
            let end = line.iter().position(|&byte| byte == b'#');
            (number, &line[..end.unwrap_or(line.len())])
        })
}

fn readable(number: usize, line: &[u8]) -> Result<&str, BadText> {
    match std::str::from_utf8(line) {
        Ok(line) if is_text(line.as_bytes()) => Ok(line),
        _ => bad(number, "not a readable text"),
    }
}

/// A line of a text: a command and its operands.
pub struct Line<'a> {
    pub number: usize,
    pub command: &'a str,
    operands: Vec<&'a str>,
}

/// The lines of a text that have a command.
pub fn commands(text: &[u8]) -> impl Iterator<Item = Result<Line<'_>, BadText>> {
    lines(text).filter_map(|(number, line)| {
        let mut words = match readable(number, line) {
            Ok(line) => line.split_ascii_whitespace(),
            Err(bad) => return Some(Err(bad)),
        };
        let command = words.next()?;
        let operands = words.collect();
        Some(Ok(Line {
            number,
            command,
            operands,
        }))
    })
}

/// The first line of a text, which has this command, and the lines after it.
pub fn headed<'a>(
    text: &'a [u8],
    command: &str,
    operands: &str,
) -> Result<(Line<'a>, impl Iterator<Item = Result<Line<'a>, BadText>>), BadText> {
    let mut lines = commands(text);
    match lines.next().transpose()? {
        Some(line) if line.command == command => Ok((line, lines)),
        first => {
            let line = first.map_or(1, |line| line.number);
            bad(
                line,
                format!("the first line must be `{command} {operands}`"),
            )
        }
    }
}

impl<'a> Line<'a> {
    /// The operands, if there are as many as these names.
    pub fn operands<const N: usize>(&self, names: [&str; N]) -> Result<[&'a str; N], BadText> {
        self.operands.as_slice().try_into().or_else(|_| {
            let form = [&[self.command], names.as_slice()].concat().join(" ");
            self.bad_form(&form)
        })
    }

    fn bad_form<T>(&self, form: &str) -> Result<T, BadText> {
        bad(self.number, format!("the command is `{form}`"))
    }

    /// A number that fits the operand's width. The library knows the limits.
    pub fn value<T: TryFrom<u64>>(
        &self,
        name: &str,
        word: &str,
        limits: Option<(u64, u64)>,
    ) -> Result<T, BadText> {
        if !word.bytes().all(|byte| byte.is_ascii_digit()) {
            let message = format!("the {name} `{word}` is not a whole number");
            return bad(self.number, message);
        }
        let value = word.parse::<u64>().ok();
        if let Some(value) = value.and_then(|value| T::try_from(value).ok()) {
            return Ok(value);
        }
        let mut message = format!("the {name} {word} is too large to be written");
        if let Some((least, most)) = limits {
            message += &format!("; it must be from {least} to {most}");
        }
        bad(self.number, message)
    }
}

/// Writes the stream of a text with one command a line: `open CAPACITY STOCK M`
/// or `open CAPACITY STOCK M TRAILER`, then `shelve SIZE`, `count`, `withdraw
/// NUMBER`, `production NUMBER`, `reserve LEAST GREATEST` and `settle NUMBER SIZE`.
/// `#` starts a comment.
pub fn read_text(text: &[u8]) -> Result<Source, BadText> {
    let mut stream: Option<StreamBuilder> = None;
    let mut places = Vec::new();
    for line in commands(text) {
        let line = line?;
        let offset = stream.as_ref().map_or(0, |stream| stream.bytes().len());
        match line.command {
            "open" => {
                let opened = read_open(&line)?;
                if stream.replace(opened).is_some() {
                    return bad(line.number, "the shelf is already open");
                }
            }
            "shelve" => {
                let [size] = line.operands(["size"])?;
                let size = line.value("size", size, None)?;
                opened(&mut stream, line.number)?.shelve(size);
            }
            "count" => {
                let [] = line.operands([])?;
                opened(&mut stream, line.number)?.count();
            }
            "withdraw" => {
                let [number] = line.operands(["number"])?;
                let number = line.value("number", number, NUMBERS)?;
                opened(&mut stream, line.number)?.withdraw(number);
            }
            "production" => {
                let [number] = line.operands(["number"])?;
                let number: u8 = line.value("production", number, Some((0, 1)))?;
                opened(&mut stream, line.number)?.switch(number);
            }
            "reserve" => {
                let [least, greatest] = line.operands(["least", "greatest"])?;
                let least = line.value("least", least, None)?;
                let greatest = line.value("greatest", greatest, None)?;
                opened(&mut stream, line.number)?.reserve(least, greatest);
            }
            "settle" => {
                let [number, size] = line.operands(["number", "size"])?;
                let number = line.value("number", number, NUMBERS)?;
                let size = line.value("size", size, None)?;
                opened(&mut stream, line.number)?.settle(number, size);
            }
            other => {
                let commands = "open, shelve, count, withdraw, production, reserve or settle";
                let message = format!("`{other}` is no command: {commands}");
                return bad(line.number, message);
            }
        }
        places.push((offset, line.number));
    }
    match stream {
        Some(stream) => Ok(Source::of_text(stream.into_bytes(), places)),
        None => bad(1, format!("there is no command; the first is `{OPEN}`")),
    }
}

fn read_open(line: &Line<'_>) -> Result<StreamBuilder, BadText> {
    let (&[capacity, stock, m], trailer) = match line.operands.split_first_chunk() {
        Some((operands, [])) => (operands, None),
        Some((operands, [trailer])) => (operands, Some(trailer)),
        _ => return line.bad_form(OPEN),
    };
    let capacities = (1, MAX_CAPACITY.into());
    let stocks = (1, MAX_STOCK.into());
    let ms = (MIN_M.into(), MAX_M.into());
    let trailers = (0, MAX_TRAILER.into());
    let capacity = line.value("capacity", capacity, Some(capacities))?;
    let stock = line.value("stock", stock, Some(stocks))?;
    let m = line.value("m", m, Some(ms))?;
    Ok(match trailer {
        None => StreamBuilder::open(capacity, stock, m),
        Some(trailer) => {
            let trailer = line.value("trailer", trailer, Some(trailers))?;
            StreamBuilder::open_with_trailer(capacity, stock, m, trailer)
        }
    })
}

fn opened(stream: &mut Option<StreamBuilder>, line: usize) -> Result<&mut StreamBuilder, BadText> {
    match stream {
        Some(stream) => Ok(stream),
        None => bad(line, format!("the first command must be `{OPEN}`")),
    }
}

/// Reads bytes in hex, with any white space between, and `#` comments.
pub fn read_hex(text: &[u8]) -> Result<Vec<u8>, BadText> {
    let mut digits = Vec::new();
    let mut last = 1;
    for (number, line) in lines(text) {
        for byte in line.iter().filter(|byte| !byte.is_ascii_whitespace()) {
            match char::from(*byte).to_digit(16) {
                Some(value) => digits.push(value as u8),
                None => return bad(number, "there is more here than hex digits"),
            }
            last = number;
        }
    }
    if digits.len() % 2 == 1 {
        return bad(last, "the last byte lacks a hex digit");
    }
    Ok(digits
        .chunks(2)
        .map(|pair| pair[0] * 16 + pair[1])
        .collect())
}

#[cfg(test)]
mod tests {
    use super::*;
    use crate::source::Spot;

    fn bytes(text: &[u8]) -> Result<Vec<u8>, BadText> {
        read_text(text).map(|source| source.bytes)
    }

    fn fault(text: &str) -> (usize, String) {
        let bad = bytes(text.as_bytes()).unwrap_err();
        (bad.line, bad.message)
    }

    #[test]
    fn a_text_becomes_a_stream() {
        let text = b"# a shelf\n\nopen 60 4 6\r\n  shelve 35 # a feature\ncount\nwithdraw 258";
        let stream = [1, 0, 0, 0, 60, 0, 4, 6, 2, 0, 0, 0, 35, 3, 4, 1, 2];
        assert_eq!(bytes(text).unwrap(), stream);
        let hex = b"01 0000003C 0004 06 # opening\n02 00000023\n\n03\n040102";
        assert_eq!(read_hex(hex).unwrap(), stream);
    }

    #[test]
    fn a_production_is_one_byte() {
        let text = b"open 60 4 6\nproduction 1\ncount\nproduction 0\nproduction 255";
        let stream = [1, 0, 0, 0, 60, 0, 4, 6, 5, 1, 3, 5, 0, 5, 255];
        assert_eq!(bytes(text).unwrap(), stream);
    }

    #[test]
    fn a_range_and_its_settling_have_two_operands() {
        let text = b"open 60 4 6\nreserve 258 772\nsettle 1 515\nreserve 0 4294967295";
        let stream = [1, 0, 0, 0, 60, 0, 4, 6, 6, 0, 0, 1, 2, 0, 0, 3, 4];
        let after = [7, 0, 1, 0, 0, 2, 3, 6, 0, 0, 0, 0, 255, 255, 255, 255];
        assert_eq!(bytes(text).unwrap(), [&stream[..], &after].concat());
    }

    #[test]
    fn a_trailer_has_an_opening_of_its_own() {
        let opening = [0x11, 0, 0, 0, 60, 0, 4, 6];
        for (trailer, written) in [("0", [0, 0]), ("3", [0, 3]), ("65535", [255, 255])] {
            let text = format!("open 60 4 6 {trailer}\ncount");
            let stream = [&opening[..], &written, &[3]].concat();
            assert_eq!(bytes(text.as_bytes()).unwrap(), stream);
        }
    }

    #[test]
    fn the_mark_of_utf8_and_carriage_returns_are_skipped() {
        let stream = [1, 0, 0, 0, 60, 0, 4, 6, 3];
        let text = b"\xef\xbb\xbfopen 60 4 6\r\n\x0ccount\r\n";
        assert_eq!(bytes(text).unwrap(), stream);
        let hex = b"\xef\xbb\xbf010000003C 000406\r\n03 # caf\xe9\r\n";
        assert_eq!(read_hex(hex).unwrap(), stream);
    }

    #[test]
    fn a_command_is_found_at_its_line() {
        let source = read_text(b"\nopen 60 4 6\ncount\n\n\nshelve 3").unwrap();
        let lines = [0, 7, 8, 9, 13].map(|offset| source.spot(offset));
        assert_eq!(lines, [2, 2, 3, 6, 6].map(Spot::Line));
        let source = read_text(b"open 60 4 6 3\ncount\n\ncount").unwrap();
        let lines = [0, 9, 10, 11].map(|offset| source.spot(offset));
        assert_eq!(lines, [1, 1, 2, 4].map(Spot::Line));
        assert_eq!(Source::raw(vec![]).spot(7), Spot::Byte(7));
    }

    #[test]
    fn limits_are_left_to_the_library() {
        assert_eq!(bytes(b"open 0 0 0").unwrap(), [1, 0, 0, 0, 0, 0, 0, 0]);
        assert!(bytes(b"open 4294967295 65535 255").is_ok());
        assert!(bytes(b"open 60 4 6\nwithdraw 0\nwithdraw 65535").is_ok());
    }

    #[test]
    fn bad_text_is_refused_with_its_line() {
        assert_eq!(fault("").0, 1);
        assert_eq!(fault("# nothing\n").0, 1);
        assert_eq!(fault("open 60 4 6\nopen 60 4 6").0, 2);
        assert_eq!(fault("\nshelve 1").0, 2);
        assert_eq!(fault("open 60 4 6\n\nshelf 1").0, 3);
        assert_eq!(fault("open 60 4 6\nshelve").0, 2);
        assert_eq!(fault("open 60 4 6\nshelve 1 2").0, 2);
        assert_eq!(fault("open 60 4 6\nshelve -1").0, 2);
        assert_eq!(fault("open 60 4 6\nshelve +1").0, 2);
        assert_eq!(fault("open 60 4 6\nshelve 4294967296").0, 2);
        assert_eq!(fault("\nwithdraw 1").0, 2);
        assert_eq!(fault("open 60 4 6\nwithdraw").0, 2);
        assert_eq!(fault("open 60 4 6\nwithdraw 1 2").0, 2);
        assert_eq!(fault("open 60 4 6\nwithdraw x").0, 2);
        let too_large = fault("open 60 4 6\nwithdraw 65536");
        assert!(too_large.1.ends_with("from 1 to 4096"), "{too_large:?}");
        for production in ["", " 1 2", " x", " -1", " 256"] {
            assert_eq!(fault(&format!("open 60 4 6\nproduction{production}")).0, 2);
        }
        assert_eq!(fault("\nproduction 1").0, 2);
        for operands in ["", " 1", " 1 2 3", " x 2", " 1 x", " -1 2", " 1 4294967296"] {
            for command in ["reserve", "settle"] {
                assert_eq!(fault(&format!("open 60 4 6\n{command}{operands}")).0, 2);
            }
        }
        assert_eq!(fault("\nreserve 1 2").0, 2);
        assert_eq!(fault("\nsettle 1 2").0, 2);
        let too_large = fault("open 60 4 6\nsettle 65536 1");
        assert!(too_large.1.ends_with("from 1 to 4096"), "{too_large:?}");
        let too_large = fault("open 60 4 6\nproduction 256");
        assert!(too_large.1.ends_with("from 0 to 1"), "{too_large:?}");
        assert_eq!(fault("open 60 65536 6").0, 1);
        assert_eq!(fault("open 60 4 256").0, 1);
        for trailer in ["-1", "x", "65536", "3 3"] {
            assert_eq!(fault(&format!("\nopen 60 4 6 {trailer}")).0, 2);
        }
        assert_eq!(fault("open 60 4 6\n\nopen 60 4 6 3").0, 3);
        assert_eq!(fault("open 60 4").1, format!("the command is `{OPEN}`"));
        assert_eq!(bytes(b"open 60 4 6\n\xff").unwrap_err().line, 2);
        assert_eq!(bytes(b"open 60 4 6\n\x1b[m").unwrap_err().line, 2);
        assert!(bytes(b"open 60 4 6 # \xff").is_ok());
        assert!(fault("open 60 65536 6").1.ends_with("from 1 to 512"));
        assert_eq!(read_hex(b"01\n0g").unwrap_err().line, 2);
        assert_eq!(read_hex(b"01\n0\n\n").unwrap_err().line, 2);
    }
}
