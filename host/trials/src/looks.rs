//! The looks of the searches: what the outside version's own have to come to, and
//! what the third total has to be by the answers alone.

use std::fmt;

use crate::compare::Outcome;
use crate::paper::{Packing, Shelved};
use crate::streams::StreamTrial;
use crate::wire::{answer, Stream, PRODUCTIONS};

/// The least number with 2 to its power at least the stock.
fn height(stock: u16) -> usize {
    let mut numbers = 0..;
    let height = numbers.find(|&h| 1_usize << h >= usize::from(stock));
    height.expect("some power is as large")
}

/// The looks of a search by the numbers of the request.
fn looks(stock: u16, fits: bool) -> usize {
    match fits {
        true => 1 + height(stock),
        false => 1,
    }
}

/// What is wrong with the paper's searches: each master that is not refused before
/// 10 makes one, which finds what the scan finds.
pub fn fault_of_paper(shelved: &Shelved) -> Option<&'static str> {
    let searches = &shelved.packing.searches;
    let answered = shelved.commands.iter().zip(&shelved.answers);
    let to_search = (1..).zip(answered).filter(|(_, (command, (word, _)))| {
        command.item().is_some() && !matches!(answer(*word), Err(8 | 9 | 19))
    });
    let numbers = searches.iter().map(|searched| searched.number);
    if !numbers.eq(to_search.map(|(number, _)| number)) {
        return Some("the paper does not make one search for each master");
    }
    let stock = shelved.packing.opening.stock;
    searches.iter().find_map(|searched| {
        let (search, scanned) = (searched.search, searched.scanned);
        if search.place != scanned {
            Some("the paper's search does not find what its scan finds")
        } else if search.looks > looks(stock, true) {
            Some("the paper's search takes more than 1 + h looks")
        } else if search.looks != looks(stock, scanned.is_some()) {
            Some("the paper's search takes other looks than 1, or 1 + h where it fits")
        } else {
            None
        }
    })
}

/// The most looks of a search by these answers: an item that is placed on a bin
/// opened before it fits, one that opens a bin or is refused with 10 does not, and
/// nothing else is searched for.
fn by_answers(stream: &Stream, words: &[u16]) -> usize {
    let mut opened = [0; PRODUCTIONS];
    let answered = stream.commands.iter().zip(words).zip(stream.productions());
    let searches = answered.filter_map(|((command, &word), production)| {
        command.item()?;
        let fits = match answer(word) {
            Ok(bin) => {
                let before = opened[production];
                opened[production] = before.max(bin);
                bin <= before
            }
            Err(10) => false,
            Err(_) => return None,
        };
        Some(looks(stream.opening.stock, fits))
    });
    searches.max().unwrap_or(0)
}

/// What is wrong with the looks that an accepted stream returned.
pub fn fault(trial: &StreamTrial, outcome: &Outcome) -> Option<&'static str> {
    let totals = outcome.totals()?;
    let stream = Stream::read(&trial.stream).ok()?;
    let looks = by_answers(&stream, outcome.rows.answers());
    (totals.looks != looks).then_some("the looks are not the most of a search")
}

/// The heights of the trees over all stocks.
const HEIGHTS: usize = 10;

/// How many streams made no search, in how many nothing fitted, and in how many
/// something did, by the height.
#[derive(Default)]
pub struct Taken {
    none: u64,
    nothing_fits: u64,
    fits: [u64; HEIGHTS],
}

impl Taken {
    /// Adds the searches of a stream.
    pub fn add(&mut self, packing: &Packing) {
        let found = packing.searches.iter();
        let found = found.map(|searched| searched.search.place.is_some());
        match found.max() {
            None => self.none += 1,
            Some(false) => self.nothing_fits += 1,
            Some(true) => self.fits[height(packing.opening.stock)] += 1,
        }
    }
}

impl fmt::Display for Taken {
    fn fmt(&self, f: &mut fmt::Formatter<'_>) -> fmt::Result {
        let Self {
            none,
            nothing_fits,
            fits,
        } = self;
        let by_height = fits.map(|streams| streams.to_string()).join(" ");
        write!(
            f,
            "0 in {none}, 1 as nothing fits in {nothing_fits}, 1 + h for h from 0 to 9 in {by_height}"
        )
    }
}

#[cfg(test)]
mod tests {
    use super::*;
    use crate::cases::{case, sample, sent, totals};
    use crate::paper::{self, Search};
    use crate::rng::Rng;
    use crate::rows::Lent;
    use crate::wire::Command::{self, Count, Reserve, Settle, Shelve, Switch, Withdraw};
    use crate::wire::{opening, refused_word as r};
    use crate::{productions, ranges, streams, withdrawals};

    #[test]
    fn a_wrong_search_is_found() {
        let sample_shelved = || paper::shelve(&sample()).unwrap_or_else(|_| unreachable!());
        let right = sample_shelved();
        assert_eq!(fault_of_paper(&right), None);
        let searches = right.packing.searches.iter();
        let looks: Vec<usize> = searches.map(|searched| searched.search.looks).collect();
        assert_eq!(looks, [1, 1, 3, 1, 3, 1, 3, 1, 3]);
        for at in 0..looks.len() {
            let mut shelved = sample_shelved();
            shelved.packing.searches.remove(at);
            assert!(fault_of_paper(&shelved).is_some(), "none: {at}");
            for looks in [0, 1, 2, 3, 4] {
                let mut shelved = sample_shelved();
                let search = &mut shelved.packing.searches[at].search;
                let is_right = search.looks == looks;
                search.looks = looks;
                assert_eq!(
                    fault_of_paper(&shelved).is_none(),
                    is_right,
                    "{looks}: {at}"
                );
            }
            for place in [None, Some(0), Some(1), Some(2), Some(3), Some(4)] {
                let mut shelved = sample_shelved();
                let search = &mut shelved.packing.searches[at].search;
                let is_right = search.place == place;
                *search = Search { place, ..*search };
                assert_eq!(
                    fault_of_paper(&shelved).is_none(),
                    is_right,
                    "{place:?}: {at}"
                );
            }
        }
    }

    /// The fault of a stream over this stock that is answered with these words
    /// and returns these looks.
    fn found(stock: u16, answered: &[(Command, u16)], looks: usize) -> Option<&'static str> {
        let (commands, words): (Vec<Command>, Vec<u16>) = answered.iter().copied().unzip();
        let stream = sent(opening(60, stock, 6), &commands);
        let trial = case(stream, Lent::both(words.len()));
        let free = vec![0; words.len()];
        let outcome = Outcome::accepted(&trial, totals(0, 0, looks), &words, &free);
        fault(&trial, &outcome)
    }

    #[test]
    fn wrong_looks_are_found() {
        let no_search = [
            (Shelve(0), r(8)),
            (Shelve(61), r(9)),
            (Count, 0),
            (Reserve(0, 20), r(19)),
            (Reserve(1, 61), r(9)),
            (Settle(4, 1), r(20)),
        ];
        let nothing_fits = [(Shelve(35), 1), (Shelve(30), 2), (Withdraw(1), 1)];
        let spent = [(Shelve(35), 1), (Shelve(30), r(10)), (Withdraw(2), r(17))];
        let fits = [(Shelve(35), 1), (Shelve(24), 2), (Shelve(24), 2)];
        let of_the_other = [(Shelve(35), 1), (Switch(1), 1), (Shelve(35), 1)];
        let in_the_second = [(Switch(1), 1), (Shelve(24), 1), (Shelve(24), 1)];
        let range = [(Reserve(1, 24), 1), (Settle(1, 1), 1), (Reserve(1, 31), 2)];
        let fitting_range = [(Shelve(24), 1), (Reserve(1, 24), 1)];
        let spent_range = [(Shelve(24), 1), (Reserve(1, 31), r(10))];
        for (stock, answered, right) in [
            (5, &[][..], 0),
            (5, &no_search, 0),
            (5, &nothing_fits, 1),
            (1, &spent, 1),
            (2, &fits, 2),
            (4, &fits, 3),
            (5, &fits, 4),
            (512, &fits, 10),
            (5, &of_the_other, 1),
            (5, &in_the_second, 4),
            (5, &range, 1),
            (5, &fitting_range, 4),
            (1, &spent_range, 1),
        ] {
            for looks in 0..=11 {
                let fault = found(stock, answered, looks);
                assert_eq!(fault.is_none(), looks == right, "{looks} not {right}");
            }
        }
    }

    #[test]
    fn all_is_met_in_a_short_run() {
        let mut taken = Taken::default();
        for index in 0..500 {
            for random in [
                streams::random,
                withdrawals::random,
                productions::random,
                ranges::random,
            ] {
                let trial = random(&mut Rng::of_trial(1, index));
                if let Ok(shelved) = paper::shelve(&trial.stream) {
                    taken.add(&shelved.packing);
                }
            }
        }
        let all = [&taken.fits[..], &[taken.none, taken.nothing_fits]].concat();
        assert!(all.iter().all(|&streams| streams > 0), "{taken}");
    }
}
