//! Shelves a stream, prints the answers, and draws the shelf; checks a plan;
//! repacks a closed shelf; puts pictures and sounds together; prints the lists that
//! do worst.

mod arguments;
mod draw;
mod failure;
mod format;
mod input;
mod json;
mod list;
mod outcome;
mod output;
mod packing;
mod pair;
mod plan;
mod repack;
mod rows;
mod source;
mod svg;
mod text;
mod words;
mod worst;

use std::process::ExitCode;

use arguments::{Action, Pair, Place, Repack, Shelve};
use failure::Failure;
use format::Format;
use input::{Content, Input};
use outcome::{Outcome, Shelved};
use output::{print, tell};
use pair::Pairing;
use plan::Plan;
use repack::Repacking;
use source::Source;
use worst::Worst;

const ACCEPTED: u8 = 0;
const REFUSED: u8 = 1;

fn main() -> ExitCode {
    let status = run().unwrap_or_else(|failure| {
        tell(&failure.message());
        failure.status()
    });
    ExitCode::from(status)
}

fn run() -> Result<u8, Failure> {
    match arguments::parse(std::env::args_os().skip(1)).map_err(Failure::Usage)? {
        Action::Help => print(include_str!("usage.txt")).map(|()| ACCEPTED),
        Action::Version => {
            print(&format!("shelfctl {}\n", env!("CARGO_PKG_VERSION"))).map(|()| ACCEPTED)
        }
        Action::Shelve(shelve) => shelve_input(&shelve),
        Action::Check(plan) => check_plan(&plan),
        Action::Repack(repack) => repack_input(&repack),
        Action::Pair(pair) => pair_input(&pair),
        Action::Worst { k, plan: false } => print(&Worst::of(k).commands()).map(|()| ACCEPTED),
        Action::Worst { k, plan: true } => print(&Worst::of(k).plan()).map(|()| ACCEPTED),
    }
}

/// Opens an input that standard output is not added to.
fn open(place: &Place) -> Result<Input, Failure> {
    let input = Input::open(place)?;
    output::may_print(&input.file)?;
    Ok(input)
}

/// Reads a whole text, which can be nothing else.
fn whole_text(place: &Place) -> Result<Vec<u8>, Failure> {
    let mut text = Vec::new();
    open(place)?.text(&mut text)?;
    Ok(text)
}

fn shelve_input(shelve: &Shelve) -> Result<u8, Failure> {
    let input = open(&shelve.input)?;
    if let Some(Place::File(picture)) = &shelve.svg {
        output::may_draw(picture, &input.file, shelve.force)?;
    }
    let content = input.content(shelve.format.or(shelve.input.format()))?;
    let source = content.stream()?;
    let outcome = Outcome::of(&source);
    let sentences = outcome.sentences(&source);
    // The words come last, where people see them, but come whatever is written.
    let written = write(shelve, &source, &outcome, &sentences);
    sentences.iter().for_each(|sentence| tell(sentence));
    written?;
    Ok(match outcome {
        Outcome::Shelved(_) => ACCEPTED,
        Outcome::TooLong | Outcome::Refused(_) => REFUSED,
    })
}

fn write(
    shelve: &Shelve,
    source: &Source,
    outcome: &Outcome,
    sentences: &[String],
) -> Result<(), Failure> {
    if shelve.sheet {
        print(shelf::sheet(&source.bytes).text())?;
    } else if shelve.json {
        print(&json::object(outcome, sentences))?;
    } else if let (Outcome::Shelved(shelved), Some(Place::Standard)) = (outcome, &shelve.svg) {
        print(&picture(shelved))?;
    } else {
        let mut output = outcome.lines();
        if let Outcome::Shelved(Shelved { packing, .. }) = outcome {
            if shelve.draw {
                output += &format!("\n{}", draw::Drawing(packing));
            }
            if shelve.list {
                output += &format!("\n{}", list::List(packing));
            }
        }
        print(&output)?;
    }
    match (outcome, &shelve.svg) {
        (Outcome::Shelved(shelved), Some(Place::File(file))) => {
            output::write_picture(file, &picture(shelved))
        }
        _ => Ok(()),
    }
}

fn picture(shelved: &Shelved) -> String {
    svg::Picture(&shelved.packing).to_string()
}

fn check_plan(place: &Place) -> Result<u8, Failure> {
    let plan = plan::read_plan(&whole_text(place)?).map_err(input::bad_text)?;
    match plan.check() {
        Ok(()) => print("passed\n").map(|()| ACCEPTED),
        Err(refusal) => {
            let sentences = plan.sentences(refusal);
            print_refused_at(false, refusal.fault.number(), refusal.place, &sentences)
        }
    }
}

/// Prints what is to be printed of something refused, and says why it was.
fn print_refused(output: &str, sentences: &[String]) -> Result<u8, Failure> {
    let printed = print(output);
    sentences.iter().for_each(|sentence| tell(sentence));
    printed.map(|()| REFUSED)
}

/// The same of a plan or list that is refused at a place.
fn print_refused_at(
    json: bool,
    number: u32,
    place: usize,
    sentences: &[String],
) -> Result<u8, Failure> {
    let output = match json {
        true => json::refused_at_place(number, place, sentences),
        false => format!("refused {number} {place}\n"),
    };
    print_refused(&output, sentences)
}

fn repack_input(repack: &Repack) -> Result<u8, Failure> {
    let input = open(&repack.input)?;
    let content = input.content(repack.format.or(repack.input.format()))?;
    match content {
        Content {
            bytes,
            format: Format::Text,
        } if plan::is_plan(&bytes) => {
            let plan = plan::read_plan(&bytes).map_err(input::bad_text)?;
            repack_plan(repack, &plan)
        }
        content => repack_shelf(repack, &content.stream()?),
    }
}

/// Repacks what is still shelved after a stream.
fn repack_shelf(repack: &Repack, source: &Source) -> Result<u8, Failure> {
    let outcome = Outcome::of(source);
    let sentences = outcome.sentences(source);
    if let Outcome::Shelved(shelved) = &outcome {
        let printed = print_repacked(repack, &Repacking::of_shelf(shelved));
        sentences.iter().for_each(|sentence| tell(sentence));
        return printed.map(|()| ACCEPTED);
    }
    let output = match repack.json {
        true => json::object(&outcome, &sentences),
        false => outcome.lines(),
    };
    print_refused(&output, &sentences)
}

/// Repacks the masters of a plan that passes, or of a list.
fn repack_plan(repack: &Repack, plan: &Plan) -> Result<u8, Failure> {
    let checked = match plan.is_list() {
        true => Ok(()),
        false => plan.check(),
    };
    let (number, place, sentences) = match (checked, Repacking::of_plan(plan)) {
        (Ok(()), Ok(repacking)) => {
            return print_repacked(repack, &repacking).map(|()| ACCEPTED);
        }
        (Err(refusal), _) => {
            let sentences = plan.sentences(refusal);
            (refusal.fault.number(), refusal.place, sentences)
        }
        (_, Err(refusal)) => {
            let sentences = plan.sentences_of_list(refusal);
            (refusal.fault.number(), refusal.place, sentences)
        }
    };
    print_refused_at(repack.json, number, place, &sentences)
}

fn print_repacked(repack: &Repack, repacking: &Repacking) -> Result<(), Failure> {
    if repack.json {
        return print(&json::repacked(repacking));
    }
    let mut output = repacking.to_string();
    if repack.list {
        output += &format!("\n{}", repack::List(repacking));
    }
    print(&output)
}

fn pair_input(pair: &Pair) -> Result<u8, Failure> {
    let list = pair::read_list(&whole_text(&pair.input)?).map_err(input::bad_text)?;
    match Pairing::of(&list) {
        Ok(pairing) if pair.json => print(&json::paired(&pairing)).map(|()| ACCEPTED),
        Ok(pairing) => print(&pairing.to_string()).map(|()| ACCEPTED),
        Err(refusal) => {
            let sentences = list.sentences(refusal);
            print_refused_at(pair.json, refusal.fault.number(), refusal.place, &sentences)
        }
    }
}
