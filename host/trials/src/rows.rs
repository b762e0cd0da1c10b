//! The rows that are lent, the two with a stream or one with sizes, and what a call
//! leaves in them.

use std::fmt;

use crate::rng::Rng;
use crate::wire::{self, MOST_COMMANDS};

/// Words before each lent row that no call may touch.
const BEFORE: usize = 8;
/// Words after it: as many as a call could write that forgets how many are lent.
const AFTER: usize = MOST_COMMANDS;
/// As many words of a row as are shown.
const SHOWN: usize = 40;

/// How many words are lent in each row.
#[derive(Debug, Clone, Copy, PartialEq, Eq)]
pub struct Lent {
    pub answers: usize,
    pub free: usize,
}

impl Lent {
    /// As many in either row.
    pub const fn both(words: usize) -> Self {
        Self {
            answers: words,
            free: words,
        }
    }
}

/// A lent row with the words around it.
#[derive(Clone, PartialEq, Eq)]
pub struct Row<T>(Vec<T>);

impl<T: PartialEq> Row<T> {
    pub fn filled(lent: usize, word: impl FnMut() -> T) -> Self {
        let mut words = Vec::new();
        words.resize_with(BEFORE + lent + AFTER, word);
        Self(words)
    }

    pub fn lent(&self) -> &[T] {
        &self.0[BEFORE..self.0.len() - AFTER]
    }

    /// The words that a call may write.
    pub fn lend(&mut self) -> &mut [T] {
        let end = self.0.len() - AFTER;
        &mut self.0[BEFORE..end]
    }

    /// The first word in which the rows differ, numbered from 1.
    pub fn difference(&self, other: &Self, show: fn(&T) -> String) -> String {
        let mut pairs = (1 - BEFORE as i64..).zip(self.0.iter().zip(&other.0));
        match pairs.find(|(_, (one, other))| one != other) {
            None => "no difference".to_string(),
            Some((n, (one, other))) => format!("word {n}, {} against {}", show(one), show(other)),
        }
    }

    pub fn show(&self, show: fn(&T) -> String) -> String {
        let words: Vec<String> = self.lent().iter().take(SHOWN).map(show).collect();
        let more = if self.lent().len() > SHOWN {
            " ..."
        } else {
            ""
        };
        format!("{}{more}", words.join(" "))
    }
}

/// Every word of both rows, and the words around each.
#[derive(Clone, PartialEq, Eq)]
pub struct Rows {
    answers: Row<u16>,
    free: Row<u32>,
}

impl Rows {
    /// Rows of these lengths, where `fill` decides what stands there.
    pub fn filled(lent: Lent, fill: u64) -> Self {
        let mut fill = Rng::of_trial(fill, 0);
        Self {
            answers: Row::filled(lent.answers, || fill.word() as u16),
            free: Row::filled(lent.free, || fill.word() as u32),
        }
    }

    /// The words that a call may write.
    pub fn lend(&mut self) -> (&mut [u16], &mut [u32]) {
        (self.answers.lend(), self.free.lend())
    }

    /// The lent row of answers.
    pub fn answers(&self) -> &[u16] {
        self.answers.lent()
    }

    /// The lent row of free units.
    pub fn free(&self) -> &[u32] {
        self.free.lent()
    }
}

impl fmt::Display for Rows {
    fn fmt(&self, f: &mut fmt::Formatter<'_>) -> fmt::Result {
        let answers = self.answers.show(show_answer);
        let free = self.free.show(u32::to_string);
        write!(f, "answers {answers}; free units {free}")
    }
}

/// The first word of each row in which two of them differ.
pub fn difference(one: &Rows, other: &Rows) -> String {
    let answers = one.answers.difference(&other.answers, show_answer);
    let free = one.free.difference(&other.free, u32::to_string);
    format!("answers: {answers}; free units: {free}")
}

fn show_answer(word: &u16) -> String {
    match wire::answer(*word) {
        Ok(figure) => figure.to_string(),
        Err(number) => format!("{}+{number}", wire::refused_word(0)),
    }
}
