//! What the rows of a run came across, so that a run shows what it tried.

use std::fmt;

use crate::answered::Answered;
use crate::decreasing::Repacked;
use crate::limits::{has_equal, Met};
use crate::repacked::fewest;
use crate::repacking::RepackTrial;
use crate::trailers::listed;

/// How often something was met.
#[derive(Default)]
pub struct Moved {
    met: Met,
    /// Accepted rows with sizes that are equal.
    ties: u64,
    /// Those by the old count: 0, below the new one, as many, one more, larger, and
    /// the largest that can be given.
    old: [u64; 6],
    /// Rows whose fewest bins were found, and those that need more.
    fewest: [u64; 2],
    /// The largest `2 * count - 3 * k` over these.
    worst: i64,
}

impl Moved {
    /// Adds a row that came to this.
    pub fn add(&mut self, trial: &RepackTrial, answered: &Answered<Repacked>) {
        self.met.add(trial, answered);
        if let Some(repacked) = answered.returned() {
            self.add_accepted(trial, repacked);
        }
    }

    fn add_accepted(&mut self, trial: &RepackTrial, repacked: Repacked) {
        self.ties += u64::from(has_equal(&trial.sizes));
        let count = repacked.count as u32;
        let old = match trial.old {
            0 => 0,
            u32::MAX => 5,
            old if old < count => 1,
            old if old == count => 2,
            old if old == count + 1 => 3,
            _ => 4,
        };
        self.old[old] += 1;
        if let Some(fewest) = fewest(trial) {
            self.fewest[usize::from(repacked.count > fewest)] += 1;
            let excess = 2 * repacked.count as i64 - 3 * fewest as i64;
            self.worst = self.worst.max(excess);
        }
    }
}

impl fmt::Display for Moved {
    fn fmt(&self, f: &mut fmt::Formatter<'_>) -> fmt::Result {
        let Self {
            met,
            ties,
            fewest: [exact, more],
            worst,
            ..
        } = self;
        let old = [
            "0",
            "below the new one",
            "the same",
            "one more",
            "more",
            "2^32 - 1",
        ];
        write!(
            f,
            "rows to repack: {met}\n\
             accepted with equal sizes: {ties}; with old counts of {}\n\
             fewest cartridges k of {} rows, {more} are packed into more: \
             2 * count - 3 * k is at most {worst}",
            listed(old, &self.old),
            exact + more,
        )
    }
}

#[cfg(test)]
mod tests {
    use super::*;
    use crate::answered::RowTrial;
    use crate::repacking;
    use crate::rng::Rng;

    #[test]
    fn all_is_met_in_a_short_run() {
        let mut moved = Moved::default();
        for index in 0..4000 {
            let trial = repacking::random(&mut Rng::of_trial(1, index));
            moved.add(&trial, &trial.by_paper());
        }
        let all = [
            &moved.met.counts()[..],
            &moved.old,
            &moved.fewest,
            &[moved.ties],
        ];
        assert!(all.concat().iter().all(|&times| times > 0), "{moved}");
        assert_eq!(moved.worst, 0, "three for two are met");
    }
}
