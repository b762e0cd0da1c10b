//! Both sides on a row of pictures and one of sounds; and what has to hold of the
//! library's answers besides, whatever the method.

use crate::answered::{Answered, Given, Parts, RowTrial};
use crate::matching::{by_augmenting_paths, by_every_way, MOST_EDGES, SHORT};
use crate::other_pairings::GOING_ON;
use crate::pairing::PairTrial;
use crate::pm::{self, Pairs};
use crate::wire::Refusal;

impl RowTrial for PairTrial {
    type Returned = Pairs;

    fn given(&self) -> Given<'_> {
        Given {
            kind: self.kind,
            rows: vec![&self.pictures, &self.sounds],
            capacity: self.capacity,
            lent: self.lent,
            fill: self.fill,
        }
    }

    fn parts(&mut self) -> Parts<'_> {
        Parts {
            rows: vec![&mut self.pictures, &mut self.sounds],
            capacity: &mut self.capacity,
            lent: &mut self.lent,
        }
    }

    fn paper(&self, answers: &mut [u16]) -> Result<Pairs, Refusal> {
        pm::pair(&self.pictures, &self.sounds, answers, self.capacity)
    }

    fn library(&self, answers: &mut [u16]) -> Result<Pairs, shelf::RowRefusal> {
        let pairs = shelf::pair(&self.pictures, &self.sounds, answers, self.capacity)?;
        Ok(Pairs(pairs.into()))
    }

    fn fault(&self, answered: &Answered<Pairs>) -> Option<&'static str> {
        let Pairs(pairs) = answered.returned()?;
        let Some(answers) = answered.words().get(..self.pictures.len()) else {
            return Some("rows are accepted though there are too few words");
        };
        if pairs != answers.iter().filter(|&&sound| sound > 0).count() {
            return Some("the number of pairs is not that of the answers above 0");
        }
        let fault = fault_of_pairs(self, answers).or_else(|| fault_of_number(self, pairs));
        fault.or_else(|| {
            let differ = GOING_ON.answers(self) != answers;
            differ.then_some("going on after a picture that finds none changes the answers")
        })
    }

    fn show(&self) -> String {
        let Self {
            pictures,
            sounds,
            capacity,
            lent,
            ..
        } = self;
        format!(
            "rows to pair, capacity {capacity}, lent {lent} words:\n  \
             pictures {pictures:?}\n  sounds {sounds:?}"
        )
    }
}

/// Each picture fits beside its sound, and no sound is used twice.
fn fault_of_pairs(trial: &PairTrial, answers: &[u16]) -> Option<&'static str> {
    let mut used = vec![false; trial.sounds.len()];
    for (&picture, &answer) in trial.pictures.iter().zip(answers) {
        let Some(sound) = usize::from(answer).checked_sub(1) else {
            continue;
        };
        let Some(&size) = trial.sounds.get(sound) else {
            return Some("an answer is no place of a sound");
        };
        if u64::from(picture) + u64::from(size) > trial.capacity.into() {
            return Some("a picture does not fit beside its sound");
        }
        if std::mem::replace(&mut used[sound], true) {
            return Some("a sound is used twice");
        }
    }
    None
}

/// Whether the rows are short enough to find the most pairs that can be had by every
/// way of pairing, and by augmenting paths.
pub fn is_searched(trial: &PairTrial) -> [bool; 2] {
    let [pictures, sounds] = [trial.pictures.len(), trial.sounds.len()];
    [
        pictures.max(sounds) <= SHORT,
        pictures * sounds <= MOST_EDGES,
    ]
}

/// There are as many pairs as can be had.
fn fault_of_number(trial: &PairTrial, pairs: usize) -> Option<&'static str> {
    let searches = is_searched(trial)
        .into_iter()
        .zip([by_every_way, by_augmenting_paths]);
    for (_, search) in searches.filter(|&(is_searched, _)| is_searched) {
        let most = search(&trial.pictures, &trial.sounds, trial.capacity);
        if most > pairs {
            return Some("more pairs can be had");
        }
        // No good pairs are more than can be had: then it is the search that is wrong.
        if most < pairs {
            return Some("the search for more pairs finds fewer");
        }
    }
    None
}

#[cfg(test)]
mod tests {
    use super::*;

    fn trial(pictures: &[u32], sounds: &[u32]) -> PairTrial {
        PairTrial {
            kind: "case",
            pictures: pictures.to_vec(),
            sounds: sounds.to_vec(),
            capacity: 10,
            lent: pictures.len() + 1,
            fill: 1,
        }
    }

    /// The fault of answers that the library gives.
    fn fault(trial: &PairTrial, answers: &[u16], pairs: usize) -> Option<&'static str> {
        trial.fault(&Answered::accepted(trial, answers, Pairs(pairs)))
    }

    #[test]
    fn wrong_answers_are_found() {
        let rows = trial(&[3, 6, 1], &[4, 9, 7]);
        assert_eq!(fault(&rows, &[3, 1, 2], 3), None);
        for (answers, pairs) in [
            ([3, 1, 2], 2),
            ([3, 1, 0], 2),
            ([3, 1, 4], 3),
            ([1, 1, 2], 3),
            ([3, 2, 1], 3),
            ([1, 0, 3], 2),
            ([0, 0, 0], 0),
        ] {
            assert!(fault(&rows, &answers, pairs).is_some(), "{answers:?}");
        }
    }

    /// As many pairs, each good, but others.
    #[test]
    fn another_way_is_found() {
        let rows = trial(&[3, 1], &[7, 7]);
        assert_eq!(fault(&rows, &[1, 2], 2), None);
        assert!(fault(&rows, &[2, 1], 2).is_some());
    }
}
