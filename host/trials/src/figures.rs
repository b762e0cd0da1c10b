//! The free units without the method: by subtraction from the answers alone,
//! and by the vault sheet.

use std::collections::{BTreeMap, HashMap};
use std::ops::RangeInclusive;

use crate::compare::Outcome;
use crate::streams::StreamTrial;
use crate::wire::{answer, has_sheet, Command, Stream};
use crate::written::Written;

/// A figure for each bin, beside the bin's number: those of production 0, then
/// those of 1.
pub type Figures = Vec<(u16, u64)>;

/// The free units beside these answer words: the capacity less the stored sizes
/// of all that were answered the same bin of the production up to then and have
/// not left it, as settled or else by the greatest, and 0 where no item came, went
/// or was settled. `None` if a bin is given more than it holds, or gives more.
pub fn by_subtraction(stream: &Stream, words: &[u16]) -> Option<Vec<u32>> {
    by_true_sizes(stream, words, |_, greatest| greatest)
}

/// The same where each item with a range is of the size that `truth` gives for the
/// least and the greatest, till it is settled.
pub fn by_true_sizes(
    stream: &Stream,
    words: &[u16],
    mut truth: impl FnMut(u32, u32) -> u32,
) -> Option<Vec<u32>> {
    let capacity = i64::from(stream.opening.capacity);
    let stored = |size: u32| stream.opening.stored(size) as i64;
    let mut loads: HashMap<(usize, u16), i64> = HashMap::new();
    // What each command's item takes up.
    let mut sizes: HashMap<u16, i64> = HashMap::new();
    let answered = stream.commands.iter().zip(words).zip(stream.productions());
    let figures = (1..)
        .zip(answered)
        .map(|(number, ((command, &word), its))| {
            let Ok(bin) = answer(word) else {
                return Some(0);
            };
            let mut comes = |size: i64| {
                sizes.insert(number, size);
                size
            };
            let change = match *command {
                Command::Shelve(size) => comes(stored(size)),
                Command::Reserve(least, greatest) => comes(stored(truth(least, greatest))),
                Command::Withdraw(named) => -sizes.remove(&named)?,
                Command::Settle(named, size) => stored(size) - sizes.insert(named, stored(size))?,
                Command::Count | Command::Switch(_) => return Some(0),
            };
            let load = loads.entry((its, bin)).or_default();
            *load += change;
            (0..=capacity)
                .contains(load)
                .then_some((capacity - *load) as u32)
        });
    figures.collect()
}

/// The last figure that was answered for each bin, in rising number production
/// by production.
fn last_figures(stream: &Stream, words: &[u16], free: &[u32]) -> Figures {
    let answered = stream.commands.iter().zip(words).zip(free);
    let answered = answered.zip(stream.productions());
    let moved = answered.filter_map(|(((command, &word), &free), production)| match command {
        Command::Count | Command::Switch(_) => None,
        _ => Some(((production, answer(word).ok()?), free.into())),
    });
    let last: BTreeMap<(usize, u16), u64> = moved.collect();
    last.into_iter()
        .map(|((_, bin), free)| (bin, free))
        .collect()
}

/// What stands in these columns of each bin's line on a sheet, beside the
/// number in columns 1 to 4. `None` if it is no sheet.
pub fn on_sheet(sheet: &Written, columns: RangeInclusive<usize>) -> Option<Figures> {
    let (first, last) = columns.into_inner();
    let lines = sheet.as_text()?.lines();
    let lines = lines.filter(|line| !line.starts_with("PAGE"));
    let figures = lines.map(|line| {
        let (number, figure) = (line.get(..4)?, line.get(first - 1..last)?);
        Some((number.trim().parse().ok()?, figure.trim().parse().ok()?))
    });
    figures.collect()
}

/// What is wrong with the free units that an accepted stream was answered.
pub fn fault(trial: &StreamTrial, outcome: &Outcome) -> Option<&'static str> {
    outcome.totals()?;
    let stream = Stream::read(&trial.stream).ok()?;
    let (words, free) = (outcome.rows.answers(), outcome.rows.free());
    let Some(figures) = by_subtraction(&stream, words) else {
        return Some("a cartridge is given more than it holds, or gives more");
    };
    if free.get(..stream.commands.len()) != Some(&figures) {
        return Some("free units and load do not make up the capacity");
    }
    let last = last_figures(&stream, words, free);
    if has_sheet(&trial.stream) && on_sheet(&outcome.sheet, 17..=24) != Some(last) {
        return Some("the last free units of the cartridges are not those of the sheet");
    }
    None
}

#[cfg(test)]
mod tests {
    use super::*;
    use crate::cases::{case, sample, totals};
    use crate::rows::Lent;
    use crate::wire::Command::{Reserve, Settle, Shelve, Switch, Withdraw};
    use crate::wire::{opening, refused_word as r};

    /// The fault of a stream of which the library says this.
    fn found(stream: Vec<u8>, words: &[u16], free: &[u32]) -> Option<&'static str> {
        let trial = case(stream, Lent::both(words.len()));
        let outcome = Outcome::accepted(&trial, totals(0, 0, 0), words, free);
        fault(&trial, &outcome)
    }

    #[test]
    fn a_wrong_figure_is_found() {
        let words = [1, 2, 2, 3, 3, 4, 1, 32_778, 4, 4];
        let free = [25, 38, 16, 38, 16, 38, 3, 0, 0, 16];
        assert_eq!(found(sample(), &words, &free), None);
        for place in 0..free.len() {
            let mut wrong = free;
            wrong[place] += 1;
            assert!(found(sample(), &words, &wrong).is_some(), "{place}");
        }
    }

    #[test]
    fn figures_of_another_sheet_are_found() {
        let stream = Stream::of_sizes(opening(60, 4, 6), &[35, 22]);
        assert_eq!(found(stream.bytes(), &[1, 2], &[25, 38]), None);
        assert!(found(stream.bytes(), &[1, 1], &[25, 3]).is_some());
    }

    #[test]
    fn what_is_no_sheet_is_found() {
        let stream = Stream::of_sizes(opening(60, 4, 6), &[35]);
        let trial = case(stream.bytes(), Lent::both(1));
        let mut outcome = Outcome::accepted(&trial, totals(1, 1, 1), &[1], &[25]);
        assert_eq!(fault(&trial, &outcome), None);
        for text in ["", "X 1 0\n", "é"] {
            outcome.sheet = Written::text(trial.fill, text);
            assert!(fault(&trial, &outcome).is_some(), "{text}");
        }
        outcome.sheet = Written::by(trial.fill, |_| None);
        assert!(fault(&trial, &outcome).is_some());
    }

    #[test]
    fn an_overfull_bin_has_no_figure() {
        let stream = Stream::of_sizes(opening(60, 4, 6), &[35, 26]);
        assert_eq!(by_subtraction(&stream, &[1, 2]), Some(vec![25, 34]));
        assert_eq!(by_subtraction(&stream, &[1, 1]), None);
    }

    #[test]
    fn what_leaves_is_free_again() {
        let mut stream = Stream::of_sizes(opening(60, 4, 6), &[35, 22, 0]);
        let named = [1, 2, 4, 0, 9].map(Withdraw);
        stream.commands.extend(named);
        let figures = |words: [u16; 5]| {
            let words = [&[1, 2, r(8)], &words[..]].concat();
            by_subtraction(&stream, &words)
        };
        let refused = [r(17); 5];
        let none_out = vec![25, 38, 0, 0, 0, 0, 0, 0];
        assert_eq!(figures(refused), Some(none_out));
        let two_out = vec![25, 38, 0, 60, 60, 0, 0, 0];
        assert_eq!(figures([1, 2, r(17), r(17), r(17)]), Some(two_out));
        // The 35 out of a bin with 22, and what is no item.
        for (place, bin) in [(0, 2), (2, 1), (3, 1), (4, 1)] {
            let mut words = refused;
            words[place] = bin;
            assert_eq!(figures(words), None, "{place}");
        }
    }

    #[test]
    fn a_figure_without_its_trailer_is_found() {
        let opening = opening(60, 4, 6).with_trailer(5);
        let mut stream = Stream::of_sizes(opening, &[30, 17, u32::MAX]);
        stream.commands.push(Withdraw(1));
        let words = [1, 2, r(9), 1];
        assert_eq!(found(stream.bytes(), &words, &[25, 38, 0, 60]), None);
        for wrong in [[30, 38, 0, 60], [25, 43, 0, 60], [25, 38, 0, 55]] {
            assert!(found(stream.bytes(), &words, &wrong).is_some());
        }
        // The last 32 bits of its stored size, 4, would fit.
        assert_eq!(by_subtraction(&stream, &[1, 2, 2, 1]), None);
    }

    #[test]
    fn a_figure_is_of_the_own_production() {
        let opening = opening(60, 4, 6);
        let commands = [Shelve(35), Switch(1), Shelve(30), Shelve(30), Switch(0)];
        let after = [Shelve(20), Withdraw(1)];
        let commands = [&commands[..], &after].concat();
        let stream = Stream { opening, commands };
        let words = [1, 1, 1, 1, 0, 2, 1];
        let free = [25, 0, 30, 0, 0, 40, 60];
        assert_eq!(by_subtraction(&stream, &words), Some(free.to_vec()));
        assert_eq!(found(stream.bytes(), &words, &free), None);
        assert_eq!(
            last_figures(&stream, &words, &free),
            [(1, 60), (2, 40), (1, 0)]
        );
        let mut wrong = words;
        wrong[5] = 1;
        assert!(found(stream.bytes(), &wrong, &[25, 0, 30, 0, 0, 5, 40]).is_some());
    }

    #[test]
    fn what_is_settled_leaves_the_rest_free() {
        let opening = opening(60, 4, 6).with_trailer(1);
        let commands = [Reserve(4, 34), Shelve(19), Settle(1, 9), Withdraw(1)];
        let after = [Reserve(4, 34), Settle(5, 3), Withdraw(5)];
        let commands = [&commands[..], &after].concat();
        let stream = Stream { opening, commands };
        let words = [1, 2, 1, 1, 1, r(21), 1];
        let free = [25, 40, 50, 60, 25, 0, 60];
        assert_eq!(by_subtraction(&stream, &words), Some(free.to_vec()));
        assert_eq!(found(stream.bytes(), &words, &free), None);
        let least = by_true_sizes(&stream, &words, |least, _| least);
        assert_eq!(least, Some(vec![55, 40, 50, 60, 55, 0, 60]));
        for (place, wrong) in [(0, 55), (2, 25), (2, 51), (3, 85), (6, 56)] {
            let mut figures = free;
            figures[place] = wrong;
            assert!(found(stream.bytes(), &words, &figures).is_some(), "{place}");
        }
        // The 19 on one of the greatest size, and settled where it does not lie.
        let on_one = by_subtraction(&stream, &[1, 1, 1, 1, 1, r(21), 1]);
        assert_eq!(on_one, Some(vec![25, 5, 30, 40, 5, 0, 40]));
        assert_eq!(by_subtraction(&stream, &[1, 2, 2, 1, 1, r(21), 1]), None);
    }

    #[test]
    fn a_wrong_figure_beside_a_withdrawal_is_found() {
        let mut stream = Stream::of_sizes(opening(60, 4, 6), &[35, 22]);
        stream.commands.push(Withdraw(1));
        assert_eq!(found(stream.bytes(), &[1, 2, 1], &[25, 38, 60]), None);
        for wrong in [0, 25, 59] {
            assert!(found(stream.bytes(), &[1, 2, 1], &[25, 38, wrong]).is_some());
        }
    }
}
