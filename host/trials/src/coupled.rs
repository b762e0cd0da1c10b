//! What the rows to pair of a run came across, so that a run shows what it tried, and
//! that it could tell a wrong way of pairing from the right one.

use std::fmt;

use crate::answered::{Answered, RowTrial};
use crate::limits::{has_equal, Met};
use crate::other_pairings::WRONG;
use crate::paired::is_searched;
use crate::pairing::PairTrial;
use crate::pm::Pairs;
use crate::trailers::listed;

/// The wrong ways of pairing are tried on rows with as many ways of putting a picture
/// beside a sound at the most.
const MOST_TRIED: usize = 10_000;

/// How often something was met.
#[derive(Default)]
pub struct Coupled {
    met: Met,
    /// Accepted rows with pictures that are equal, with sounds that are, and with both.
    ties: [u64; 3],
    /// Those without a pair, with some left in both rows, and with a row used up.
    pairs: [u64; 3],
    /// Rows refused with 13 at a picture, and at a sound.
    outside: [u64; 2],
    /// Rows where no more pairs can be had, by each search.
    searched: [u64; 2],
    /// Rows that the wrong ways were tried on, and those that each answers otherwise.
    tried: u64,
    told: [u64; WRONG.len()],
}

impl Coupled {
    /// Adds a trial that came to this.
    pub fn add(&mut self, trial: &PairTrial, answered: &Answered<Pairs>) {
        self.met.add(trial, answered);
        if let Some(refusal) = answered.refusal() {
            if refusal.number == 13 {
                self.outside[usize::from(refusal.at > trial.pictures.len())] += 1;
            }
        }
        if let Some(Pairs(pairs)) = answered.returned() {
            self.add_accepted(trial, pairs, answered.words());
        }
    }

    fn add_accepted(&mut self, trial: &PairTrial, pairs: usize, words: &[u16]) {
        let rows = trial.given().rows;
        let [pictures, sounds] = [0, 1].map(|row| has_equal(rows[row]));
        let ties = [pictures, sounds, pictures && sounds];
        for (times, equal) in self.ties.iter_mut().zip(ties) {
            *times += u64::from(equal);
        }
        let shorter = rows.iter().map(|row| row.len()).min();
        let of_these = match pairs {
            0 => 0,
            _ if Some(pairs) < shorter => 1,
            _ => 2,
        };
        self.pairs[of_these] += 1;
        for (times, is_searched) in self.searched.iter_mut().zip(is_searched(trial)) {
            *times += u64::from(is_searched);
        }
        if rows[0].len() * rows[1].len() <= MOST_TRIED {
            self.tried += 1;
            for (times, way) in self.told.iter_mut().zip(&WRONG) {
                *times += u64::from(way.answers(trial) != words[..rows[0].len()]);
            }
        }
    }
}

impl fmt::Display for Coupled {
    fn fmt(&self, f: &mut fmt::Formatter<'_>) -> fmt::Result {
        let Self {
            met,
            searched: [every_way, paths],
            tried,
            ..
        } = self;
        let pairs = ["no pair", "some left in both rows", "a row used up"];
        write!(
            f,
            "rows to pair: {met}\n\
             13 at {}; accepted with {}; with equal sizes in {}\n\
             no more pairs can be had: by every way of pairing {every_way}, by augmenting paths {paths}\n\
             wrong ways of pairing tried on {tried}, of these told from the right one: {}",
            listed(["a picture", "a sound"], &self.outside),
            listed(pairs, &self.pairs),
            listed(["the pictures", "the sounds", "both"], &self.ties),
            listed(WRONG.each_ref().map(|way| way.name), &self.told),
        )
    }
}

#[cfg(test)]
mod tests {
    use super::*;
    use crate::pairing;
    use crate::rng::Rng;

    #[test]
    fn all_is_met_in_a_short_run() {
        let mut coupled = Coupled::default();
        for index in 0..4000 {
            let trial = pairing::random(&mut Rng::of_trial(1, index));
            coupled.add(&trial, &trial.by_paper());
        }
        let all = [
            &coupled.met.counts()[..],
            &coupled.ties,
            &coupled.pairs,
            &coupled.outside,
            &coupled.searched,
            &coupled.told,
        ];
        assert!(all.concat().iter().all(|&times| times > 0), "{coupled}");
    }
}
