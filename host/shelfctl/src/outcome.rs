//! What the library makes of a stream, in lines and in words.

use shelf::{Answer, Command, Items, Production, StreamRefusal, Totals, MAX_COMMANDS};

use crate::packing::Packing;
use crate::source::{Source, MAX_STREAM};
use crate::words;

pub enum Outcome {
    /// Longer than the program `shelve` takes.
    TooLong,
    Refused(StreamRefusal),
    Shelved(Shelved),
}

/// A command after the opening, with its answer.
#[derive(Clone, Copy)]
pub struct Answered {
    /// The production that it belongs to.
    pub production: Production,
    pub command: Command,
    pub answer: Answer,
}

pub struct Shelved {
    /// In the order of the commands.
    pub answers: Vec<Answered>,
    pub totals: Totals,
    /// What is still shelved.
    pub items: Items,
    pub packing: Packing,
}

impl Outcome {
    pub fn of(source: &Source) -> Self {
        if source.bytes.len() > MAX_STREAM {
            return Self::TooLong;
        }
        match Shelved::of(&source.bytes) {
            Ok(shelved) => Self::Shelved(shelved),
            Err(refusal) => Self::Refused(refusal),
        }
    }

    /// The lines that the program `shelve` prints.
    pub fn lines(&self) -> String {
        match self {
            Self::TooLong => format!("L {MAX_STREAM}\n"),
            Self::Refused(refusal) => {
                format!("X {} {}\n", refusal.fault.number(), refusal.offset)
            }
            Self::Shelved(shelved) => shelved.lines(),
        }
    }

    /// What was refused, for people.
    pub fn sentences(&self, source: &Source) -> Vec<String> {
        match self {
            Self::TooLong => words::of_length(source),
            Self::Refused(refusal) => words::of_stream(source, *refusal),
            Self::Shelved(shelved) => words::of_commands(source, shelved),
        }
    }
}

impl Shelved {
    pub fn of(stream: &[u8]) -> Result<Self, StreamRefusal> {
        let (mut words, mut free) = ([0; MAX_COMMANDS], [0; MAX_COMMANDS]);
        let totals = shelf::shelve(stream, &mut words, &mut free)?;
        let answers = shelf::answers(stream, &words, &free).zip(shelf::productions(stream));
        let answers: Vec<Answered> = answers
            .map(|((command, answer), production)| Answered {
                production,
                command,
                answer,
            })
            .collect();
        let items = Items::after(stream, &words, &free);
        let packing = Packing::of(stream, &answers, &items);
        Ok(Self {
            answers,
            totals,
            items,
            packing,
        })
    }

    fn lines(&self) -> String {
        let mut lines = String::new();
        for (number, answered) in (1..).zip(&self.answers) {
            lines += &match answered.answer {
                Answer::Placed { bin, free } => format!("P {number} {bin} {free}\n"),
                Answer::Counted { opened } => format!("C {number} {opened}\n"),
                Answer::Withdrawn { bin, .. } => format!("O {number} {bin}\n"),
                Answer::Settled { bin, .. } => format!("F {number} {bin}\n"),
                Answer::Switched(production) => format!("S {number} {}\n", production.number()),
                Answer::Refused(refusal) => format!("R {number} {}\n", refusal.number()),
            };
        }
        let Totals {
            items,
            opened,
            looks,
        } = self.totals;
        lines + &format!("T {items} {opened} {looks}\n")
    }
}
