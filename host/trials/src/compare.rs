//! Both sides on one trial.

use std::fmt;
use std::panic::{self, AssertUnwindSafe};
use std::sync::atomic::{AtomicBool, Ordering};

use crate::paper::{self, Shelved, Totals};
use crate::plans::PlanTrial;
use crate::rows::Rows;
use crate::sheet;
use crate::streams::StreamTrial;
use crate::wire::{Refusal, Stream};
use crate::written::Written;

/// Set while the library is called: its wrapper panics on a result outside the
/// interface, and that is a difference like any other, not to be announced for
/// each step of the shrinking.
static QUIET: AtomicBool = AtomicBool::new(false);

pub fn quiet_panics() {
    let usual = panic::take_hook();
    panic::set_hook(Box::new(move |info| {
        if !QUIET.load(Ordering::Relaxed) {
            usual(info);
        }
    }));
}

/// `None` if the library's result was outside its interface.
pub fn guarded<T>(call: impl FnOnce() -> T) -> Option<T> {
    QUIET.store(true, Ordering::Relaxed);
    let result = panic::catch_unwind(AssertUnwindSafe(call));
    QUIET.store(false, Ordering::Relaxed);
    result.ok()
}

/// What a stream came to: the result, every word of both rows with the words
/// around them, and the sheet.
#[derive(Clone, PartialEq, Eq)]
pub struct Outcome {
    result: Option<Result<Totals, Refusal>>,
    pub rows: Rows,
    pub sheet: Written,
}

impl Outcome {
    /// What an accepted stream comes to with these totals, these words written
    /// at the front of each row and all others untouched, and the paper's sheet.
    pub fn accepted(trial: &StreamTrial, totals: Totals, answers: &[u16], free: &[u32]) -> Self {
        let answer = |words: &mut [u16], units: &mut [u32]| {
            words[..answers.len()].copy_from_slice(answers);
            units[..free.len()].copy_from_slice(free);
            Some(Ok(totals))
        };
        outcome(trial, answer, by_paper(trial).sheet)
    }

    /// What a refused stream comes to: both rows untouched, and the paper's
    /// sheet.
    pub fn refused(trial: &StreamTrial, refusal: Refusal) -> Self {
        let answer = |_: &mut [u16], _: &mut [u32]| Some(Err(refusal));
        outcome(trial, answer, by_paper(trial).sheet)
    }

    /// What the stream returned, if it was accepted.
    pub fn totals(&self) -> Option<Totals> {
        self.result?.ok()
    }

    /// What it returned, if it was refused.
    pub fn refusal(&self) -> Option<Refusal> {
        self.result?.err()
    }
}

fn outcome(
    trial: &StreamTrial,
    call: impl FnOnce(&mut [u16], &mut [u32]) -> Option<Result<Totals, Refusal>>,
    sheet: Written,
) -> Outcome {
    let mut rows = Rows::filled(trial.lent, trial.fill);
    let (answers, free) = rows.lend();
    let result = call(answers, free);
    Outcome {
        result,
        rows,
        sheet,
    }
}

pub fn by_paper(trial: &StreamTrial) -> Outcome {
    by_paper_of(trial, &paper::shelve(&trial.stream))
}

/// The same, of what the paper makes of the trial's stream.
pub fn by_paper_of(trial: &StreamTrial, shelved: &Result<Shelved, Refusal>) -> Outcome {
    let stream = &trial.stream;
    let sheet = Written::text(trial.fill, &sheet::sheet(stream, shelved));
    let answer =
        |words: &mut [u16], free: &mut [u32]| Some(paper::answer(stream, shelved, words, free));
    outcome(trial, answer, sheet)
}

pub fn by_library(trial: &StreamTrial) -> Outcome {
    let sheet = Written::by(trial.fill, |lent| {
        guarded(|| shelf::write_sheet(&trial.stream, lent))
    });
    let answer = |words: &mut [u16], free: &mut [u32]| {
        let result = guarded(|| shelf::shelve(&trial.stream, words, free))?;
        Some(match result {
            Ok(totals) => Ok(Totals {
                items: totals.items.into(),
                opened: totals.opened.into(),
                looks: totals.looks.into(),
            }),
            Err(refusal) => Err(Refusal {
                number: refusal.fault.number(),
                at: refusal.offset,
            }),
        })
    };
    outcome(trial, answer, sheet)
}

/// The words of both rows by which the library answers the commands, if it
/// accepts the stream.
pub fn words_by_library(stream: &Stream) -> Option<(Vec<u16>, Vec<u32>)> {
    let commands = stream.commands.len();
    let (mut words, mut free) = (vec![0; commands], vec![0; commands]);
    let result = guarded(|| shelf::shelve(&stream.bytes(), &mut words, &mut free))?;
    result.is_ok().then_some((words, free))
}

fn seen(refusal: shelf::PlanRefusal) -> Refusal {
    Refusal {
        number: refusal.fault.number(),
        at: refusal.place,
    }
}

/// The library's verdict on a plan. A plan with rows of one length is checked
/// as entries too, and both calls must agree.
pub fn plan_by_library(trial: &PlanTrial) -> Option<Result<(), Refusal>> {
    let (items, capacity, k) = (&trial.items, trial.capacity, trial.k);
    let rows = guarded(|| shelf::check_plan_rows(&trial.sizes, &trial.bins, items, capacity, k))?;
    if trial.sizes.len() == trial.bins.len() {
        let entry = |(size, bin)| shelf::Entry { size, bin };
        let entries: Vec<_> = trial.entries().into_iter().map(entry).collect();
        if guarded(|| shelf::check_plan(&entries, items, capacity, k))? != rows {
            return None;
        }
    }
    Some(rows.map_err(seen))
}

pub fn verdict(result: Result<(), Refusal>) -> String {
    match result {
        Ok(()) => "passed".to_string(),
        Err(Refusal { number, at }) => format!("refused {number} at place {at}"),
    }
}

impl fmt::Display for Outcome {
    fn fmt(&self, f: &mut fmt::Formatter<'_>) -> fmt::Result {
        match self.result {
            None => write!(f, "a result outside the interface")?,
            Some(Ok(Totals {
                items,
                opened,
                looks,
            })) => write!(f, "accepted {items}, opened {opened}, looks {looks}")?,
            Some(Err(Refusal { number, at })) => write!(f, "refused {number} at offset {at}")?,
        }
        // Untouched rows say nothing.
        match self.totals() {
            Some(_) => write!(f, "; {}", self.rows),
            None => Ok(()),
        }
    }
}
