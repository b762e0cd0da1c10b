//! What the command line asks for.

use std::ffi::{OsStr, OsString};
use std::iter::Peekable;
use std::os::unix::ffi::{OsStrExt, OsStringExt};
use std::path::PathBuf;

use shelf::MAX_STOCK;

use crate::format::Format;

/// A file, or the standard input or output in its place.
#[derive(Debug, PartialEq, Eq)]
pub enum Place {
    Standard,
    File(PathBuf),
}

impl Place {
    fn of(name: OsString) -> Self {
        if name == "-" {
            Self::Standard
        } else {
            Self::File(name.into())
        }
    }

    /// The format that its name tells.
    pub fn format(&self) -> Option<Format> {
        match self {
            Self::Standard => None,
            Self::File(file) => Format::of_name(file),
        }
    }
}

#[derive(Debug, PartialEq, Eq)]
pub enum Action {
    Help,
    Version,
    Shelve(Shelve),
    Check(Place),
    Repack(Repack),
    Pair(Pair),
    /// The list that does worst for `k` cartridges, or its plan.
    Worst {
        k: u32,
        plan: bool,
    },
}

/// How to shelve a stream, and what to show of it.
#[derive(Debug, PartialEq, Eq)]
pub struct Shelve {
    pub input: Place,
    /// `None` leaves it to the input's name and content.
    pub format: Option<Format>,
    /// Whether to print the vault sheet, and nothing else.
    pub sheet: bool,
    pub draw: bool,
    pub list: bool,
    pub json: bool,
    pub svg: Option<Place>,
    /// Whether the picture may take the place of a file that is no SVG.
    pub force: bool,
}

impl Shelve {
    /// Standard output holds one thing: lines, a sheet, JSON or a picture.
    fn fits_the_output(&self) -> Result<(), String> {
        if self.sheet && (self.draw || self.list || self.json || self.svg.is_some()) {
            return Err("--sheet prints the vault sheet and nothing else".to_string());
        }
        let picture = self.svg == Some(Place::Standard);
        if picture && (self.draw || self.list || self.json) {
            return Err("--svg - prints the picture and nothing else".to_string());
        }
        if self.json && self.draw {
            return Err("--json prints no drawing".to_string());
        }
        Ok(())
    }
}

/// How to repack a closed shelf, and what to show of it.
#[derive(Debug, PartialEq, Eq)]
pub struct Repack {
    pub input: Place,
    /// `None` leaves it to the input's name and content.
    pub format: Option<Format>,
    pub list: bool,
    pub json: bool,
}

/// What pictures and sounds to pair, and how to show it.
#[derive(Debug, PartialEq, Eq)]
pub struct Pair {
    pub input: Place,
    pub json: bool,
}

/// A command, by the word that stands first on its line.
struct Command {
    word: &'static str,
    /// Its own options; `--help` and `--version` are of all commands.
    options: &'static [&'static str],
    action: fn(Given) -> Result<Action, String>,
}

const COMMANDS: [Command; 4] = [
    Command {
        word: "check",
        options: &["--"],
        action: check,
    },
    Command {
        word: "repack",
        options: &["--text", "--hex", "--raw", "--list", "--json", "--"],
        action: repack,
    },
    Command {
        word: "pair",
        options: &["--json", "--"],
        action: pair,
    },
    Command {
        word: "worst",
        options: &["--plan"],
        action: worst,
    },
];

/// The command of a line that starts with no other's word.
const SHELVE: Command = Command {
    word: "",
    options: &[
        "--text", "--hex", "--raw", "--sheet", "--draw", "--list", "--json", "--svg", "--force",
        "--",
    ],
    action: shelve,
};

/// Reads the arguments after the program's name.
pub fn parse(arguments: impl Iterator<Item = OsString>) -> Result<Action, String> {
    let mut arguments = arguments.peekable();
    let mut first = |command: &&Command| arguments.next_if(|word| word == command.word).is_some();
    let command = COMMANDS.iter().find(&mut first).unwrap_or(&SHELVE);
    let mut given = Given::default();
    while let Some(argument) = arguments.next() {
        match argument.to_str() {
            Some("--help" | "-h") => return Ok(Action::Help),
            Some("--version") => return Ok(Action::Version),
            _ if is_option(&argument) => {
                given.take(&argument, command.options, &mut arguments)?;
            }
            _ => given.operands.push(argument),
        }
    }
    (command.action)(given)
}

/// What the options of a line say, and what else stands on it.
#[derive(Default)]
struct Given {
    format: Option<Format>,
    sheet: bool,
    draw: bool,
    list: bool,
    json: bool,
    svg: Option<Place>,
    force: bool,
    plan: bool,
    operands: Vec<OsString>,
}

impl Given {
    /// Takes in an option, if it is one of the command's own, with what follows it.
    fn take(
        &mut self,
        argument: &OsStr,
        own: &[&str],
        rest: &mut Peekable<impl Iterator<Item = OsString>>,
    ) -> Result<(), String> {
        let picture = argument.as_bytes().strip_prefix(b"--svg=");
        let option = match picture {
            Some(_) => "--svg",
            None => argument.to_str().unwrap_or_default(),
        };
        if !own.contains(&option) {
            return Err(format!("there is no option {}", argument.display()));
        }
        match option {
            "--text" => self.set_format(Format::Text)?,
            "--hex" => self.set_format(Format::Hex)?,
            "--raw" => self.set_format(Format::Raw)?,
            "--sheet" => self.sheet = true,
            "--draw" => self.draw = true,
            "--list" => self.list = true,
            "--json" => self.json = true,
            "--force" => self.force = true,
            "--plan" => self.plan = true,
            "--svg" => self.set_svg(match picture {
                Some(name) => OsString::from_vec(name.to_vec()),
                // `--svg --draw` is a name forgotten, not a name.
                None => {
                    let name = rest.next_if(|next| !is_option(next));
                    name.unwrap_or_default()
                }
            })?,
            "--" => self.operands.extend(rest),
            _ => unreachable!("{option} is in the list of a command"),
        }
        Ok(())
    }

    fn set_format(&mut self, format: Format) -> Result<(), String> {
        match self.format.replace(format) {
            Some(_) => Err("the format is given twice".to_string()),
            None => Ok(()),
        }
    }

    fn set_svg(&mut self, name: OsString) -> Result<(), String> {
        if name.is_empty() {
            return Err("--svg needs the name of a file".to_string());
        }
        match self.svg.replace(Place::of(name)) {
            Some(_) => Err("--svg is given twice".to_string()),
            None => Ok(()),
        }
    }

    /// The input: the one FILE, or standard input without one.
    fn input(&mut self) -> Result<Place, String> {
        if self.operands.len() > 1 {
            return Err("there can be only one FILE".to_string());
        }
        Ok(self.operands.pop().map_or(Place::Standard, Place::of))
    }
}

fn shelve(mut given: Given) -> Result<Action, String> {
    let shelve = Shelve {
        input: given.input()?,
        format: given.format,
        sheet: given.sheet,
        draw: given.draw,
        list: given.list,
        json: given.json,
        svg: given.svg,
        force: given.force,
    };
    shelve.fits_the_output()?;
    Ok(Action::Shelve(shelve))
}

fn check(mut given: Given) -> Result<Action, String> {
    given.input().map(Action::Check)
}

fn repack(mut given: Given) -> Result<Action, String> {
    Ok(Action::Repack(Repack {
        input: given.input()?,
        format: given.format,
        list: given.list,
        json: given.json,
    }))
}

fn pair(mut given: Given) -> Result<Action, String> {
    Ok(Action::Pair(Pair {
        input: given.input()?,
        json: given.json,
    }))
}

fn worst(given: Given) -> Result<Action, String> {
    match &given.operands[..] {
        [number] => Ok(Action::Worst {
            k: cartridges(number)?,
            plan: given.plan,
        }),
        _ => Err("worst needs one number of cartridges".to_string()),
    }
}

fn cartridges(number: &OsStr) -> Result<u32, String> {
    let digits = number.to_str().filter(|text| !text.starts_with('+'));
    match digits.and_then(|text| text.parse().ok()) {
        Some(k) if (1..=MAX_STOCK.into()).contains(&k) => Ok(k),
        _ => Err(format!(
            "{} is no number of cartridges from 1 to {MAX_STOCK}",
            number.display()
        )),
    }
}

fn is_option(argument: &OsStr) -> bool {
    argument.as_bytes().starts_with(b"-") && argument != "-"
}

#[cfg(test)]
mod tests {
    use super::*;

    fn parsed(line: &str) -> Result<Action, String> {
        parse(line.split(' ').map(OsString::from))
    }

    fn shelve(line: &str) -> Shelve {
        match parsed(line) {
            Ok(Action::Shelve(shelve)) => shelve,
            other => panic!("{line}: {other:?}"),
        }
    }

    fn pair(line: &str) -> (Place, bool) {
        match parsed(line) {
            Ok(Action::Pair(Pair { input, json })) => (input, json),
            other => panic!("{line}: {other:?}"),
        }
    }

    fn worst(line: &str) -> (u32, bool) {
        match parsed(line) {
            Ok(Action::Worst { k, plan }) => (k, plan),
            other => panic!("{line}: {other:?}"),
        }
    }

    fn repack(line: &str) -> Repack {
        match parsed(line) {
            Ok(Action::Repack(repack)) => repack,
            other => panic!("{line}: {other:?}"),
        }
    }

    fn file(name: &str) -> Place {
        Place::File(name.into())
    }

    #[test]
    fn options_and_files_are_told_apart() {
        assert_eq!(parse([].into_iter()), parsed("-"));
        assert_eq!(shelve("a").input, file("a"));
        assert_eq!(shelve("-- --draw").input, file("--draw"));
        assert_eq!(shelve("-- -").input, Place::Standard);
        assert_eq!(shelve("--svg=p.svg a").svg, Some(file("p.svg")));
        assert_eq!(shelve("--svg p.svg a").input, file("a"));
        assert_eq!(shelve("--svg -").svg, Some(Place::Standard));
        assert_eq!(shelve("--svg=-").svg, Some(Place::Standard));
        assert_eq!(shelve("--hex check").input, file("check"));
        assert_eq!(shelve("--hex a").format, Some(Format::Hex));
        assert!(shelve("--sheet --hex a").sheet);
        assert_eq!(parsed("check p"), Ok(Action::Check(file("p"))));
        assert_eq!(parsed("check -- -p"), Ok(Action::Check(file("-p"))));
        assert_eq!(parsed("check"), Ok(Action::Check(Place::Standard)));
        assert_eq!(repack("repack").input, Place::Standard);
        assert_eq!(repack("repack --hex a").format, Some(Format::Hex));
        assert_eq!(repack("repack -- --json").input, file("--json"));
        assert!(repack("repack a --list").list && repack("repack --json a").json);
        assert_eq!(shelve("--hex repack").input, file("repack"));
        assert_eq!(parsed("repack --help"), Ok(Action::Help));
        assert_eq!(pair("pair"), (Place::Standard, false));
        assert_eq!(pair("pair a --json"), (file("a"), true));
        assert_eq!(pair("pair -- --json"), (file("--json"), false));
        assert_eq!(shelve("--hex pair").input, file("pair"));
        assert_eq!(parsed("pair --version"), Ok(Action::Version));
        assert_eq!(worst("worst 1"), (1, false));
        assert_eq!(worst("worst --plan 512"), (512, true));
        assert_eq!(worst("worst 512 --plan"), (512, true));
        assert_eq!(shelve("--hex worst").input, file("worst"));
        assert_eq!(parsed("worst --help"), Ok(Action::Help));
        assert_eq!(parsed("a --version"), Ok(Action::Version));
        assert_eq!(parsed("check --help"), Ok(Action::Help));
    }

    #[test]
    fn what_makes_no_sense_is_refused() {
        for line in [
            "a b",
            "a -- b",
            "- -",
            "--nothing",
            "-x",
            "--svg",
            "--svg=",
            "--svg --draw",
            "--svg a --svg b",
            "--svg - --list",
            "--svg=- --json",
            "--json --draw",
            "--sheet --draw",
            "--list --sheet",
            "--sheet --json",
            "--sheet --svg p.svg",
            "--sheet --svg -",
            "--hex --raw",
            "check a b",
            "check --draw a",
            "repack a b",
            "repack --draw a",
            "repack --sheet a",
            "repack --text --raw a",
            "repack --svg=p.svg a",
            "pair a b",
            "pair --text a",
            "pair --list a",
            "pair --svg=p.svg a",
            "worst",
            "worst 0",
            "worst 513",
            "worst -1",
            "worst +1",
            "worst 1 2",
            "worst --draw 1",
            "worst -- 1",
            "--plan a",
            "check --json a",
            "--draw=1",
        ] {
            assert!(parsed(line).is_err(), "{line}");
        }
    }
}
