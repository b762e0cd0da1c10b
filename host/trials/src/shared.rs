//! What the productions of a run came across over their one stock, so that a run
//! shows what it tried.

use std::fmt;

use crate::compare::by_library;
use crate::independence;
use crate::paper::{Packing, Production};
use crate::streams::StreamTrial;
use crate::wire::{answer, Command, Stream};

/// How often something was met, by the paper.
#[derive(Default)]
pub struct Shared {
    /// Accepted streams by the productions that opened bins: none, the first
    /// alone, the second alone, both.
    opened: [u64; 4],
    /// Those where the second production follows a page of the first that is
    /// full, and one that is not.
    pages: [u64; 2],
    /// Switches to the production that is current, and to the other.
    switches: [u64; 2],
    /// Refusals 10 in a production that has opened none of the stock, some, all.
    spent: [u64; 3],
    /// Items that found space in a bin when both together had opened the stock.
    fitting: u64,
    /// Streams refused with 18.
    no_production: u64,
    /// Answers that were compared with those of a stream that differs in the
    /// other production.
    compared: usize,
}

impl Shared {
    /// Adds what is met in a stream.
    pub fn add(&mut self, trial: &StreamTrial) {
        self.compared += independence::compared(trial, &by_library(trial)).unwrap_or(0);
        match Stream::read(&trial.stream) {
            Ok(stream) => self.add_accepted(&stream),
            Err(refusal) => self.no_production += u64::from(refusal.number == 18),
        }
    }

    fn add_accepted(&mut self, stream: &Stream) {
        let mut shelf = Packing::new(stream.opening);
        let stock = usize::from(stream.opening.stock);
        let opened = |production: &Production| production.bins.len();
        let commands = stream.commands.iter().zip(stream.productions());
        for (number, (&command, production)) in (1..).zip(commands) {
            let (own, other) = (opened(shelf.current()), opened(shelf.other()));
            match (command, answer(shelf.answer(number, command).0)) {
                (Command::Switch(to), _) => {
                    self.switches[usize::from(usize::from(to) != production)] += 1;
                }
                (_, Err(10)) => {
                    let part = usize::from(own > 0) + usize::from(own == stock);
                    self.spent[part] += 1;
                }
                (Command::Shelve(_) | Command::Reserve(..), Ok(_)) => {
                    self.fitting += u64::from(other > 0 && own + other == stock);
                }
                _ => {}
            }
        }
        let [first, second] = shelf.productions.each_ref().map(opened);
        self.opened[usize::from(first > 0) + 2 * usize::from(second > 0)] += 1;
        if first > 0 && second > 0 {
            self.pages[usize::from(first % 50 > 0)] += 1;
        }
    }
}

impl fmt::Display for Shared {
    fn fmt(&self, f: &mut fmt::Formatter<'_>) -> fmt::Result {
        let Self {
            opened: [none, first, second, both],
            pages: [full, short],
            switches: [same, other],
            spent: [of_none, of_some, of_all],
            fitting,
            no_production,
            compared,
        } = self;
        write!(
            f,
            "cartridges in neither production {none}, in 0 alone {first}, in 1 alone {second}, \
             in both {both}, these behind a full page {full}, behind a short one {short}\n\
             switches: {other}, and {same} to the production that is current; \
             streams refused with 18: {no_production}\n\
             refused with 10 with none of the stock opened {of_none}, with some {of_some}, \
             with all {of_all}; placed though the stock is spent {fitting}\n\
             answers beside another stream of the other production: {compared}"
        )
    }
}

#[cfg(test)]
mod tests {
    use super::*;
    use crate::productions;
    use crate::rng::Rng;

    #[test]
    fn all_is_met_in_a_short_run() {
        let mut met = Shared::default();
        for index in 0..1000 {
            let trial = productions::random(&mut Rng::of_trial(1, index));
            met.add(&trial);
        }
        let rest = [met.fitting, met.no_production, met.compared as u64];
        let all = [
            &met.opened[..],
            &met.pages,
            &met.switches,
            &met.spent,
            &rest,
        ]
        .concat();
        assert!(all.iter().all(|&times| times > 0), "{met}");
    }
}
