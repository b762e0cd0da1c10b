//! Calls that answer a row of sizes word for word: what a trial of one has, and what
//! it came to on either side.

use std::fmt;

use crate::compare::guarded;
use crate::rng::Rng;
use crate::rows::Row;
use crate::smaller::smaller_rows;
use crate::wire::Refusal;

/// What is given to a call.
pub struct Given<'a> {
    pub kind: &'static str,
    /// The rows of sizes; the first is the one that is answered.
    pub rows: Vec<&'a [u32]>,
    pub capacity: u32,
    /// The length of the lent row.
    pub lent: usize,
    /// What that row and the words around it hold before the call.
    pub fill: u64,
}

/// The same, to be changed.
pub struct Parts<'a> {
    pub rows: Vec<&'a mut Vec<u32>>,
    pub capacity: &'a mut u32,
    pub lent: &'a mut usize,
}

pub trait RowTrial: Clone {
    /// What a call returns that is accepted.
    type Returned: Copy + PartialEq + fmt::Display;

    fn given(&self) -> Given<'_>;

    fn parts(&mut self) -> Parts<'_>;

    /// The call on paper, and by the library.
    fn paper(&self, answers: &mut [u16]) -> Result<Self::Returned, Refusal>;
    fn library(&self, answers: &mut [u16]) -> Result<Self::Returned, shelf::RowRefusal>;

    /// What is wrong with the answers, if they are accepted.
    fn fault(&self, answered: &Answered<Self::Returned>) -> Option<&'static str>;

    /// All that is given but the words.
    fn show(&self) -> String;

    fn smaller(&self) -> Box<dyn Iterator<Item = Self> + '_> {
        Box::new(smaller_rows(self))
    }

    fn by_paper(&self) -> Answered<Self::Returned> {
        Answered::by(self, |answers| Some(self.paper(answers)))
    }

    fn by_library(&self) -> Answered<Self::Returned> {
        Answered::by(self, |answers| {
            let result = guarded(|| self.library(answers))?;
            Some(result.map_err(|refusal| Refusal {
                number: refusal.fault.number(),
                at: refusal.place,
            }))
        })
    }
}

/// What a trial came to: the result, `None` if it was outside the interface, and every
/// lent word with the words around them.
#[derive(Clone, PartialEq, Eq)]
pub struct Answered<T> {
    result: Option<Result<T, Refusal>>,
    row: Row<u16>,
}

impl<T: Copy> Answered<T> {
    /// What a call leaves.
    fn by(
        trial: &impl RowTrial<Returned = T>,
        call: impl FnOnce(&mut [u16]) -> Option<Result<T, Refusal>>,
    ) -> Self {
        let given = trial.given();
        let mut fill = Rng::of_trial(given.fill, 0);
        let mut row = Row::filled(given.lent, || fill.word() as u16);
        let result = call(row.lend());
        Self { result, row }
    }

    /// What a trial comes to that is accepted, with these answers and all other words
    /// untouched.
    pub fn accepted(trial: &impl RowTrial<Returned = T>, answers: &[u16], returned: T) -> Self {
        Self::by(trial, |row| {
            row[..answers.len()].copy_from_slice(answers);
            Some(Ok(returned))
        })
    }

    /// What a trial comes to that is refused: every word is untouched.
    pub fn refused(trial: &impl RowTrial<Returned = T>, refusal: Refusal) -> Self {
        Self::by(trial, |_| Some(Err(refusal)))
    }

    /// What was returned, if it was accepted.
    pub fn returned(&self) -> Option<T> {
        self.result?.ok()
    }

    /// Its refusal, if it was not.
    pub fn refusal(&self) -> Option<Refusal> {
        self.result?.err()
    }

    /// The lent words.
    pub fn words(&self) -> &[u16] {
        self.row.lent()
    }

    /// The first word in which two of them differ.
    pub fn difference(&self, other: &Self) -> String {
        self.row.difference(&other.row, u16::to_string)
    }
}

impl<T: fmt::Display> fmt::Display for Answered<T> {
    fn fmt(&self, f: &mut fmt::Formatter<'_>) -> fmt::Result {
        match &self.result {
            None => write!(f, "a result outside the interface"),
            Some(Err(Refusal { number, at })) => write!(f, "refused {number} at place {at}"),
            Some(Ok(returned)) => {
                let answers = self.row.show(u16::to_string);
                write!(f, "{returned}; answers {answers}")
            }
        }
    }
}
