//! Whatever the true sizes of the items that wait to be settled: no cartridge is
//! overfull, by the answers alone.

use crate::compare::Outcome;
use crate::figures::by_true_sizes;
use crate::rng::Rng;
use crate::streams::StreamTrial;
use crate::wire::{Command, Stream};

/// Gives a size of this range.
type Truth = fn(rng: &mut Rng, least: u32, greatest: u32) -> u32;

const TRUTHS: [Truth; 4] = [
    |_, least, _| least,
    |_, _, greatest| greatest,
    |rng, least, greatest| rng.between(least.into(), greatest.into()) as u32,
    |rng, least, greatest| rng.pick(&[least, greatest]),
];

/// What is wrong with an accepted stream if its items with a range are as large as
/// they may be, as small, or anything in between. Where there are none, nothing is
/// left to chance.
pub fn fault(trial: &StreamTrial, outcome: &Outcome) -> Option<&'static str> {
    outcome.totals()?;
    let stream = Stream::read(&trial.stream).ok()?;
    let mut commands = stream.commands.iter();
    if !commands.any(|command| matches!(command, Command::Reserve(..))) {
        return None;
    }
    let mut rng = Rng::of_trial(trial.fill, 2);
    let words = outcome.rows.answers();
    let mut fitting = TRUTHS.iter().map(|truth| {
        by_true_sizes(&stream, words, |least, greatest| {
            // A wrong range has no size, and is not to be placed.
            truth(&mut rng, least.min(greatest), greatest)
        })
    });
    let overfull = fitting.any(|figures| figures.is_none());
    overfull.then_some("a cartridge is overfull, should its masters turn out so large")
}

#[cfg(test)]
mod tests {
    use super::*;
    use crate::cases::{case, sent, totals};
    use crate::rows::Lent;
    use crate::wire::opening;
    use crate::wire::Command::{Reserve, Settle, Shelve, Withdraw};

    fn found(commands: &[Command], words: &[u16]) -> bool {
        let stream = sent(opening(60, 4, 6).with_trailer(1), commands);
        let trial = case(stream, Lent::both(words.len()));
        let free = vec![0; words.len()];
        let outcome = Outcome::accepted(&trial, totals(0, 0, 0), words, &free);
        fault(&trial, &outcome).is_some()
    }

    #[test]
    fn what_fits_by_the_least_alone_is_found() {
        let commands = [Reserve(9, 29), Reserve(9, 29), Reserve(9, 29)];
        assert!(!found(&commands, &[1, 1, 2]));
        assert!(found(&commands, &[1, 1, 1]));
        assert!(!found(&[Reserve(9, 29), Shelve(29)], &[1, 1]));
        assert!(found(&[Reserve(9, 29), Shelve(30)], &[1, 1]));
    }

    #[test]
    fn a_settled_size_is_the_true_one() {
        let commands = [Reserve(9, 39), Settle(1, 19), Shelve(39), Withdraw(1)];
        assert!(!found(&commands, &[1, 1, 1, 1]));
        let more = [&commands[..], &[Reserve(1, 19), Shelve(1)]].concat();
        assert!(!found(&more[..5], &[1, 1, 1, 1, 1]));
        assert!(found(&more, &[1, 1, 1, 1, 1, 1]));
        let larger = [Reserve(9, 39), Settle(1, 20), Shelve(39)];
        assert!(found(&larger, &[1, 1, 1]));
    }

    #[test]
    fn what_is_not_there_is_neither_settled_nor_taken_out() {
        assert!(found(&[Reserve(5, 9), Settle(3, 5)], &[1, 1]));
        assert!(found(&[Reserve(5, 9), Withdraw(3)], &[1, 1]));
        assert!(!found(&[Shelve(5)], &[1]));
    }
}
