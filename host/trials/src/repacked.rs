//! Both sides on a row of sizes; and what has to hold of the library's answers
//! besides, whatever the method: by the plan checkers, by the fewest bins, and for
//! what a stream leaves shelved.

use crate::answered::{Answered, Given, Parts, RowTrial};
use crate::compare::{self, plan_by_library};
use crate::decreasing::{self, Repacked};
use crate::fewest::{Fewest, SHORT};
use crate::plans::PlanTrial;
use crate::repacking::RepackTrial;
use crate::smaller::{lower, smaller_rows};
use crate::still_shelved::own_plans;
use crate::streams::StreamTrial;
use crate::wire::{Refusal, Stream};

impl RowTrial for RepackTrial {
    type Returned = Repacked;

    fn given(&self) -> Given<'_> {
        Given {
            kind: self.kind,
            rows: vec![&self.sizes],
            capacity: self.capacity,
            lent: self.lent,
            fill: self.fill,
        }
    }

    fn parts(&mut self) -> Parts<'_> {
        Parts {
            rows: vec![&mut self.sizes],
            capacity: &mut self.capacity,
            lent: &mut self.lent,
        }
    }

    fn paper(&self, answers: &mut [u16]) -> Result<Repacked, Refusal> {
        decreasing::repack(&self.sizes, answers, self.capacity, self.old)
    }

    fn library(&self, answers: &mut [u16]) -> Result<Repacked, shelf::RowRefusal> {
        let repacked = shelf::repack(&self.sizes, answers, self.capacity, self.old)?;
        Ok(Repacked {
            count: repacked.count.into(),
            saves_nothing: repacked.saves_nothing,
        })
    }

    fn fault(&self, answered: &Answered<Repacked>) -> Option<&'static str> {
        let Repacked {
            count,
            saves_nothing,
        } = answered.returned()?;
        if saves_nothing != (count as u64 >= self.old.into()) {
            return Some("what saves nothing is not told by the two counts");
        }
        let Some(answers) = answered.words().get(..self.sizes.len()) else {
            return Some("a row is accepted though there are too few words");
        };
        let mut used: Vec<usize> = answers.iter().map(|&bin| bin.into()).collect();
        used.sort_unstable();
        used.dedup();
        if !used.into_iter().eq(1..=count) {
            return Some("the cartridges are not numbered from 1 to the count without a gap");
        }
        fault_of_plan(self, answers, count).or_else(|| fault_of_count(self, count))
    }

    /// Smaller sizes, and fewer, leave a plan that is known as it is.
    fn smaller(&self) -> Box<dyn Iterator<Item = Self> + '_> {
        let rows = smaller_rows(self).map(|smaller| Self {
            known: self.known.filter(|_| smaller.capacity == self.capacity),
            ..smaller
        });
        let olds = lower(self.old).map(|old| Self {
            old,
            ..self.clone()
        });
        Box::new(rows.chain(olds))
    }

    fn show(&self) -> String {
        let Self {
            sizes,
            capacity,
            old,
            lent,
            ..
        } = self;
        format!("row, capacity {capacity}, old count {old}, lent {lent} words:\n  sizes {sizes:?}")
    }
}

/// The fewest bins of a row that is short enough.
pub fn fewest(trial: &RepackTrial) -> Option<usize> {
    if trial.sizes.len() > SHORT {
        return None;
    }
    let mut fewest = Fewest::new(trial.capacity.into());
    for &size in &trial.sizes {
        fewest.add(size.into());
    }
    Some(fewest.bins())
}

/// The checkers pass the plan of the answers with k the count, and not with less.
fn fault_of_plan(trial: &RepackTrial, answers: &[u16], count: usize) -> Option<&'static str> {
    let mut plan = PlanTrial {
        kind: "repacked",
        sizes: trial.sizes.clone(),
        bins: answers.iter().map(|&bin| bin.into()).collect(),
        items: trial.sizes.clone(),
        capacity: trial.capacity,
        k: count as u32,
    };
    let verdicts = |plan: &PlanTrial| [plan_by_library(plan), Some(plan.by_paper())];
    if verdicts(&plan) != [Some(Ok(())); 2] {
        return Some("the plan of the answers does not pass");
    }
    if count > 0 {
        plan.k -= 1;
        let no_such_bin = |verdict: Option<Result<(), Refusal>>| matches!(verdict, Some(Err(refusal)) if refusal.number == 14);
        if !verdicts(&plan).into_iter().all(no_such_bin) {
            return Some("the plan of the answers passes with a cartridge less");
        }
    }
    None
}

/// The count is held against the fewest, or a plan that is known, or the sizes.
fn fault_of_count(trial: &RepackTrial, count: usize) -> Option<&'static str> {
    let fewest = fewest(trial);
    let known = trial.known.map(|known| known as usize);
    if fewest.into_iter().chain(known).any(|k| 2 * count > 3 * k) {
        return Some("twice the count is above three times that of another plan");
    }
    let units: u64 = trial.sizes.iter().copied().map(u64::from).sum();
    let by_units = units.div_ceil(trial.capacity.into()) as usize;
    if count < fewest.unwrap_or(0).max(by_units) {
        return Some("the count is below the fewest");
    }
    None
}

/// The rows of what is still shelved after an accepted stream, one for each
/// production, by the stored sizes and with the bins that it opened as the old count.
pub fn own_rows(trial: &StreamTrial, outcome: &compare::Outcome) -> Vec<RepackTrial> {
    let stream = Stream::read(&trial.stream).ok();
    let stream = stream.filter(|_| outcome.totals().is_some());
    let plans = stream.and_then(|stream| own_plans(&stream, outcome.rows.answers()).ok());
    let row = |plan: PlanTrial| RepackTrial {
        kind: "own shelf",
        lent: plan.items.len() + (trial.fill % 3) as usize,
        sizes: plan.items,
        capacity: plan.capacity,
        old: plan.k,
        known: Some(plan.k),
        fill: trial.fill,
    };
    plans.into_iter().flatten().map(row).collect()
}

/// What is wrong with the repacking of what an accepted stream leaves shelved.
pub fn own_fault(trial: &StreamTrial, outcome: &compare::Outcome) -> Option<&'static str> {
    let mut rows = own_rows(trial, outcome).into_iter();
    rows.find_map(|row| {
        let library = row.by_library();
        if library.returned().is_none() {
            return Some("what is still shelved is not repacked");
        }
        if library != row.by_paper() {
            return Some("what is still shelved is repacked otherwise than on paper");
        }
        row.fault(&library)
    })
}

#[cfg(test)]
mod tests {
    use super::*;
    use crate::cases::{case, sample, totals};
    use crate::rows::Lent;

    fn trial(sizes: &[u32], old: u32) -> RepackTrial {
        RepackTrial {
            kind: "case",
            sizes: sizes.to_vec(),
            capacity: 10,
            old,
            known: None,
            lent: sizes.len() + 1,
            fill: 1,
        }
    }

    /// The fault of a row of which the library says this.
    fn found(trial: &RepackTrial, answers: &[u16], count: usize, saves: bool) -> bool {
        let repacked = Repacked {
            count,
            saves_nothing: !saves,
        };
        let answered = Answered::accepted(trial, answers, repacked);
        trial.fault(&answered).is_some()
    }

    #[test]
    fn wrong_answers_are_found() {
        let row = trial(&[4, 3, 4, 3, 3, 3], 4);
        assert!(!found(&row, &[1, 2, 1, 2, 2, 3], 3, true));
        // Another plan passes too: that it is the method's, the comparison sees to.
        assert!(!found(&row, &[1, 1, 2, 1, 2, 2], 2, true));
        for (answers, count, saves) in [
            ([1, 2, 1, 2, 2, 3], 3, false),
            ([1, 2, 1, 2, 2, 3], 2, true),
            ([1, 2, 1, 2, 2, 3], 4, false),
            ([1, 2, 1, 2, 2, 4], 4, false),
            ([0, 1, 0, 1, 1, 2], 2, true),
            ([1, 2, 1, 2, 2, 2], 2, true),
            ([1, 2, 3, 4, 4, 4], 4, false),
        ] {
            assert!(found(&row, &answers, count, saves), "{answers:?} {count}");
        }
    }

    #[test]
    fn a_known_plan_is_held_against_the_count() {
        let known = |known| RepackTrial {
            known: Some(known),
            ..trial(&[1; 20], 21)
        };
        let answers: Vec<u16> = (1..=20).collect();
        assert!(!found(&known(14), &answers, 20, true));
        assert!(found(&known(13), &answers, 20, true));
    }

    #[test]
    fn a_shelf_of_its_own_has_a_row_for_each_production() {
        let trial = case(sample(), Lent::both(10));
        let words = [1, 2, 2, 3, 3, 4, 1, 32_778, 4, 4];
        let free = [25, 38, 16, 38, 16, 38, 3, 0, 0, 16];
        let outcome = compare::Outcome::accepted(&trial, totals(8, 4, 3), &words, &free);
        let rows = own_rows(&trial, &outcome);
        assert_eq!(rows.len(), 2);
        assert_eq!(rows[0].sizes, [35, 22, 22, 22, 22, 22, 22, 22]);
        assert_eq!((rows[0].old, rows[1].old, rows[1].sizes.len()), (4, 0, 0));
        assert_eq!(own_fault(&trial, &outcome), None);
    }
}
