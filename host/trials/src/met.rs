//! What the withdrawals of a run came across, so that a run shows what it tried.

use std::collections::HashSet;
use std::fmt;

use crate::paper::{size_class, Packing, SizeClass};
use crate::streams::StreamTrial;
use crate::wire::{answer, Command, Stream, MOST_COMMANDS};

/// What a refused withdrawal or settling names.
#[derive(Clone, Copy)]
pub enum Named {
    Zero,
    Itself,
    Later,
    AboveAll,
    Count,
    Withdrawal,
    Switch,
    Settling,
    Refused,
    Out,
    OthersItem,
    /// On the shelf, and so only settled: of no range, or settled before.
    Plain,
    Settled,
}

pub const NAMED: [(Named, &str); 13] = [
    (Named::Zero, "0"),
    (Named::Itself, "itself"),
    (Named::Later, "a later number"),
    (Named::AboveAll, "one above 4,096"),
    (Named::Count, "a count"),
    (Named::Withdrawal, "a withdrawal"),
    (Named::Switch, "a switch"),
    (Named::Settling, "a settling"),
    (Named::Refused, "a refused master"),
    (Named::Out, "one already out"),
    (Named::OthersItem, "one of the other production"),
    (Named::Plain, "one of no range"),
    (Named::Settled, "one already settled"),
];

/// Those that a withdrawal may name.
const WITHDRAWN: usize = Named::Plain as usize;

impl Named {
    /// What the refused command of this number names, where these are out.
    pub fn by(
        commands: &[Command],
        number: usize,
        named: u16,
        shelf: &Packing,
        out: &HashSet<u16>,
    ) -> Self {
        let earlier = match named.into() {
            0 => return Self::Zero,
            other if other == number => return Self::Itself,
            other if other > MOST_COMMANDS => return Self::AboveAll,
            other if other > number => return Self::Later,
            earlier => earlier,
        };
        match commands[earlier - 1] {
            Command::Count => Self::Count,
            Command::Withdraw(_) => Self::Withdrawal,
            Command::Switch(_) => Self::Switch,
            Command::Settle(..) => Self::Settling,
            _ if out.contains(&named) => Self::Out,
            _ if shelf.other().holds(earlier) => Self::OthersItem,
            _ if !shelf.current().holds(earlier) => Self::Refused,
            Command::Shelve(_) => Self::Plain,
            Command::Reserve(..) => Self::Settled,
        }
    }
}

/// How often something was met, by the paper.
#[derive(Default)]
pub struct Met {
    taken_out: u64,
    refused: [u64; WITHDRAWN],
    /// Bins that lost their last item, and empty ones that were chosen again,
    /// by their class.
    emptied: [u64; 4],
    chosen_again: [u64; 4],
    /// m-th B2 items that passed over bins of class 1 with space for them: over
    /// an empty one, and over one that holds a B2 alone.
    past_empty: u64,
    past_b2: u64,
    /// Items accepted after a refusal 10 and a withdrawal since.
    after_10: u64,
}

impl Met {
    /// Adds what is met in a stream, if it has no fault.
    pub fn add(&mut self, trial: &StreamTrial) {
        if let Ok(stream) = Stream::read(&trial.stream) {
            self.add_accepted(&stream);
        }
    }

    fn add_accepted(&mut self, Stream { opening, commands }: &Stream) {
        let mut shelf = Packing::new(*opening);
        let mut out = HashSet::new();
        let mut withdrawn_since_10 = None;
        for (number, &command) in (1..).zip(commands) {
            let opened = shelf.current().bins.len();
            match (command, answer(shelf.answer(number, command).0)) {
                (Command::Shelve(size) | Command::Reserve(_, size), Ok(bin)) => {
                    self.placed(&shelf, opening.stored(size), bin.into(), opened);
                    self.after_10 += u64::from(withdrawn_since_10 == Some(true));
                }
                (_, Err(10)) => withdrawn_since_10 = Some(false),
                (Command::Withdraw(named), Ok(bin)) => {
                    let bin = &shelf.current().bins[usize::from(bin) - 1];
                    self.emptied[bin.class as usize - 1] += u64::from(bin.items.is_empty());
                    self.taken_out += 1;
                    out.insert(named);
                    withdrawn_since_10 = withdrawn_since_10.map(|_| true);
                }
                (Command::Withdraw(named), Err(_)) => {
                    let named = Named::by(commands, number, named, &shelf, &out);
                    self.refused[named as usize] += 1;
                }
                _ => {}
            }
        }
    }

    /// Adds an item of this stored size in this bin, when so many bins of its
    /// production were opened.
    fn placed(&mut self, shelf: &Packing, size: u64, bin: usize, opened: usize) {
        let capacity = u64::from(shelf.opening.capacity);
        let bins = &shelf.current().bins;
        let (passed, bin) = (&bins[..bin - 1], &bins[bin - 1]);
        if passed.len() < opened && bin.items.len() == 1 {
            self.chosen_again[bin.class as usize - 1] += 1;
        }
        if bin.class == 1 && size_class(size, capacity) == SizeClass::B2 {
            let first = passed.iter().filter(|bin| bin.class == 1);
            let with_space = first.filter(|bin| bin.load() + size <= capacity);
            let (empty, b2): (Vec<_>, Vec<_>) = with_space.partition(|bin| bin.items.is_empty());
            self.past_empty += u64::from(!empty.is_empty());
            self.past_b2 += u64::from(!b2.is_empty());
        }
    }
}

impl fmt::Display for Met {
    fn fmt(&self, f: &mut fmt::Formatter<'_>) -> fmt::Result {
        let Self {
            taken_out,
            refused,
            emptied,
            chosen_again,
            past_empty,
            past_b2,
            after_10,
        } = self;
        let named = refused.iter().zip(NAMED);
        let named: Vec<String> = named
            .map(|(times, (_, words))| format!("{words} {times}"))
            .collect();
        let by_class = |bins: &[u64; 4]| bins.map(|bins| bins.to_string()).join(" ");
        write!(
            f,
            "taken out: {taken_out}; refused as they name {}\n\
             cartridges of class 1 to 4: emptied {}, and chosen again {}\n\
             m-th B2 past an empty cartridge of class 1: {past_empty}, past one with a B2 \
             alone: {past_b2}; accepted after a 10 and a withdrawal: {after_10}",
            named.join(", "),
            by_class(emptied),
            by_class(chosen_again),
        )
    }
}

#[cfg(test)]
mod tests {
    use super::*;
    use crate::rng::Rng;
    use crate::{productions, ranges, withdrawals};

    #[test]
    fn all_is_met_in_a_short_run() {
        let mut met = Met::default();
        for index in 0..500 {
            for random in [withdrawals::random, productions::random, ranges::random] {
                met.add(&random(&mut Rng::of_trial(1, index)));
            }
        }
        let rest = [met.taken_out, met.past_empty, met.past_b2, met.after_10];
        let all = [&met.refused[..], &met.emptied, &met.chosen_again, &rest].concat();
        assert!(all.iter().all(|&times| times > 0), "{met}");
    }
}
