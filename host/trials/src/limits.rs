//! The limits of calls that answer rows of sizes, from the requests: what is refused,
//! what breaks them or comes near, and how often a run met each.

use std::fmt;

use crate::answered::{Answered, Parts, RowTrial};
use crate::paper::MOST_ENTRIES;
use crate::rng::Rng;
use crate::trailers::listed;
use crate::wire::{Refusal, MOST_CAPACITY};

/// The refusals whose conditions hold, in their order, each with its place. The first
/// of the rows is answered in so many lent words; the places of each count on after
/// those of the row before.
pub fn faults(rows: &[&[u32]], capacity: u32, lent: usize) -> Vec<Refusal> {
    let is_outside = |&size: &u32| size == 0 || size > capacity;
    let outside = rows.iter().copied().flatten().position(is_outside);
    let too_long = rows.iter().any(|row| row.len() > MOST_ENTRIES);
    let faults = [
        (11, (capacity == 0 || capacity > MOST_CAPACITY).then_some(0)),
        (12, too_long.then_some(0)),
        (13, outside.map(|place| place + 1)),
        (22, (lent < rows[0].len()).then_some(0)),
    ];
    let refusal = |(number, at): (u32, Option<usize>)| Some(Refusal { number, at: at? });
    faults.into_iter().filter_map(refusal).collect()
}

/// Puts in something that the rows are refused for, or that comes close to it.
pub fn damage(rng: &mut Rng, parts: Parts) {
    let Parts {
        mut rows,
        capacity,
        lent,
    } = parts;
    let answered = rows[0].len();
    let row = rng.place(rows.len());
    let sizes = &mut *rows[row];
    match rng.between(0, 9) {
        0 => *capacity = rng.pick(&[0, MOST_CAPACITY + 1, u32::MAX]),
        1 => *capacity = rng.pick(&[1, MOST_CAPACITY, *capacity / 2]),
        2 if rng.chance(20) => {
            let most = MOST_ENTRIES;
            let word = rng.pick(&[0, 1, *capacity]);
            sizes.resize(rng.pick(&[most, most + 1, most + 9, 5000]), word);
        }
        3..=6 if !sizes.is_empty() => {
            let place = rng.place(sizes.len());
            let above = capacity.saturating_add(1);
            sizes[place] = rng.pick(&[0, *capacity, above, above, u32::MAX]);
        }
        7 => *lent = answered.saturating_sub(1),
        8 => *lent = 0,
        _ => *lent = answered,
    }
}

/// The lengths that are odd.
const LENGTHS: [usize; 5] = [0, 1, MOST_ENTRIES - 1, MOST_ENTRIES, MOST_ENTRIES + 1];

/// The refusals, in their order.
const NUMBERS: [u32; 4] = [11, 12, 13, 22];

/// Two conditions that hold at once, of which the first decides.
const TWO: [(u32, u32); 6] = [(11, 12), (11, 13), (11, 22), (12, 13), (12, 22), (13, 22)];

/// How often something was met.
#[derive(Default)]
pub struct Met {
    trials: u64,
    accepted: u64,
    /// Rows of these lengths.
    lengths: [u64; LENGTHS.len()],
    refused: [u64; NUMBERS.len()],
    at_once: [u64; TWO.len()],
    /// Words behind the last answer that were lent, and stayed as they were.
    behind: usize,
}

impl Met {
    /// Adds a trial that came to this.
    pub fn add<T: RowTrial>(&mut self, trial: &T, answered: &Answered<T::Returned>) {
        let given = trial.given();
        self.trials += 1;
        for (times, length) in self.lengths.iter_mut().zip(LENGTHS) {
            let of_it = given.rows.iter().filter(|row| row.len() == length);
            *times += of_it.count() as u64;
        }
        let faults = faults(&given.rows, given.capacity, given.lent);
        let holds = |number| faults.iter().any(|fault| fault.number == number);
        for (times, (one, other)) in self.at_once.iter_mut().zip(TWO) {
            *times += u64::from(holds(one) && holds(other));
        }
        if let Some(refusal) = answered.refusal() {
            for (times, number) in self.refused.iter_mut().zip(NUMBERS) {
                *times += u64::from(refusal.number == number);
            }
        }
        if answered.returned().is_some() {
            self.accepted += 1;
            self.behind += given.lent - given.rows[0].len();
        }
    }

    /// All of the counts.
    #[cfg(test)]
    pub fn counts(&self) -> Vec<u64> {
        let others = [self.trials, self.accepted, self.behind as u64];
        [&self.lengths[..], &self.refused, &self.at_once, &others].concat()
    }
}

impl fmt::Display for Met {
    fn fmt(&self, f: &mut fmt::Formatter<'_>) -> fmt::Result {
        let Self {
            trials,
            accepted,
            behind,
            ..
        } = self;
        let at_once = TWO.map(|(one, other)| format!("{one} and {other}"));
        write!(
            f,
            "{trials}, of these {accepted} accepted; words behind their answers: {behind}\n\
             with lengths of {}\n\
             refused with {}; where both hold, {}",
            listed(LENGTHS, &self.lengths),
            listed(NUMBERS, &self.refused),
            listed(at_once, &self.at_once),
        )
    }
}

/// Whether two sizes of a row are equal.
pub fn has_equal(row: &[u32]) -> bool {
    let mut sizes = row.to_vec();
    sizes.sort_unstable();
    sizes.windows(2).any(|pair| pair[0] == pair[1])
}
