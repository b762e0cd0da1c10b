//! What the ranges of a run came across, so that a run shows what it tried.

use std::collections::HashSet;
use std::fmt;

use crate::met::{Named, NAMED};
use crate::paper::{Packing, SizeClass};
use crate::ranges::held_a;
use crate::streams::StreamTrial;
use crate::trailers::listed;
use crate::wire::{answer, has_sheet, Command, Stream};

/// How often something was met, by the paper.
#[derive(Default)]
pub struct Settled {
    /// Items with a range by their class: A, B1, B2, X.
    placed: [u64; 4],
    /// Refused with 19 for a least of 0 and for one above the greatest, with 9, and
    /// with 10.
    refused: [u64; 4],
    /// Settled at the least, at the greatest, and between them; both at once count
    /// as the least.
    settled: [u64; 3],
    /// Refused with 20, by what is named.
    not_waiting: [u64; NAMED.len()],
    /// Refused with 21 below the least and above the greatest.
    outside: [u64; 2],
    /// Taken out before they were settled, and after.
    taken_out: [u64; 2],
    /// Items accepted after a refusal 10 and a settling since.
    after_10: u64,
    /// A that came to lie beside another A, and B2 that came to a bin of which one
    /// of several A was taken out.
    beside_an_a: u64,
    b2_beside_the_other_a: u64,
    /// Accepted streams that are too long to be printed.
    too_long: u64,
}

impl Settled {
    /// Adds what is met in a stream, if it has no fault.
    pub fn add(&mut self, trial: &StreamTrial) {
        if let Ok(stream) = Stream::read(&trial.stream) {
            self.too_long += u64::from(!has_sheet(&trial.stream));
            self.add_accepted(&stream);
        }
    }

    fn add_accepted(&mut self, Stream { opening, commands }: &Stream) {
        let mut shelf = Packing::new(*opening);
        let mut so_far = SoFar::default();
        for (number, &command) in (1..).zip(commands) {
            let (class, range) = named_by(&shelf, command).unzip();
            let range = range.flatten();
            let word = answer(shelf.answer(number, command).0);
            match (command, word) {
                (Command::Reserve(least, _), Err(refusal)) => {
                    let kind = match refusal {
                        19 => usize::from(least > 0),
                        9 => 2,
                        _ => 3,
                    };
                    self.refused[kind] += 1;
                }
                (Command::Settle(_, size), Ok(_)) => self.settle(size, range),
                (Command::Settle(named, _), Err(20)) => {
                    let named = Named::by(commands, number, named, &shelf, &so_far.out);
                    self.not_waiting[named as usize] += 1;
                }
                (Command::Settle(_, size), Err(_)) => {
                    let above = range.is_some_and(|(_, greatest)| size > greatest);
                    self.outside[usize::from(above)] += 1;
                }
                (Command::Withdraw(named), Ok(bin)) => {
                    self.taken_out[usize::from(range.is_none())] += 1;
                    so_far.out.insert(named);
                    if class == Some(SizeClass::A) {
                        so_far.an_a_is_out(&shelf, bin.into());
                    }
                }
                (Command::Shelve(_) | Command::Reserve(..), Ok(bin)) => {
                    self.place(&shelf, command, bin.into(), &so_far);
                }
                _ => {}
            }
            so_far.settled_since_10 = match (command, word) {
                (_, Err(10)) => Some(false),
                (Command::Settle(..), Ok(_)) => so_far.settled_since_10.map(|_| true),
                _ => so_far.settled_since_10,
            };
        }
    }

    /// Adds an item that came to this bin.
    fn place(&mut self, shelf: &Packing, command: Command, bin: usize, so_far: &SoFar) {
        let bins = &shelf.current().bins;
        let Some(item) = bins[bin - 1].items.last() else {
            return;
        };
        if let Command::Reserve(..) = command {
            self.placed[item.class as usize] += 1;
        }
        let is_a = item.class == SizeClass::A;
        self.beside_an_a += u64::from(is_a && held_a(&bins[bin - 1]) > 1);
        let is_b2 = item.class == SizeClass::B2;
        let of_several = so_far.of_several.contains(&so_far.bin(shelf, bin));
        self.b2_beside_the_other_a += u64::from(is_b2 && of_several);
        self.after_10 += u64::from(so_far.settled_since_10 == Some(true));
    }

    fn settle(&mut self, size: u32, range: Option<(u32, u32)>) {
        let kind = match range {
            Some((least, _)) if size == least => 0,
            Some((_, greatest)) if size == greatest => 1,
            _ => 2,
        };
        self.settled[kind] += 1;
    }
}

/// What has become of a stream's items so far.
#[derive(Default)]
struct SoFar {
    out: HashSet<u16>,
    /// Whether anything was settled since the last refusal 10, if there was one.
    settled_since_10: Option<bool>,
    /// The bins with an A of which another A was taken out.
    of_several: HashSet<(bool, usize)>,
}

impl SoFar {
    /// The bin of this number of the current production, told from the other's.
    fn bin(&self, shelf: &Packing, bin: usize) -> (bool, usize) {
        let is_first = std::ptr::eq(shelf.current(), &shelf.productions[0]);
        (is_first, bin)
    }

    /// An A was taken out of this bin, as the only one or not.
    fn an_a_is_out(&mut self, shelf: &Packing, bin: usize) {
        let at = self.bin(shelf, bin);
        match held_a(&shelf.current().bins[bin - 1]) {
            0 => self.of_several.remove(&at),
            _ => self.of_several.insert(at),
        };
    }
}

/// The class of the item that the command names, and its range as long as it waits
/// to be settled.
fn named_by(shelf: &Packing, command: Command) -> Option<(SizeClass, Option<(u32, u32)>)> {
    let named = usize::from(command.names()?);
    let mut items = shelf.current().bins.iter().flat_map(|bin| &bin.items);
    let item = items.find(|item| item.number == named)?;
    Some((item.class, item.range))
}

impl fmt::Display for Settled {
    fn fmt(&self, f: &mut fmt::Formatter<'_>) -> fmt::Result {
        let Self {
            placed,
            refused,
            settled,
            not_waiting,
            outside,
            taken_out,
            after_10,
            beside_an_a,
            b2_beside_the_other_a,
            too_long,
        } = self;
        let refusals = ["19 for a least of 0", "19 for one too high", "9", "10"];
        write!(
            f,
            "masters with a range: {}; refused with {}\n\
             settled {}; refused with 20 as they name {}; with 21 {}\n\
             taken out {}; accepted after a 10 and a settling: {after_10}; A beside another \
             A: {beside_an_a}, B2 where one of several A is out: {b2_beside_the_other_a}\n\
             accepted, but too long to be printed: {too_long}",
            listed(["A", "B1", "B2", "X"], placed),
            listed(refusals, refused),
            listed(["at the least", "at the greatest", "between"], settled),
            listed(NAMED.map(|(_, words)| words), not_waiting),
            listed(["below", "above"], outside),
            listed(["before it is settled", "after"], taken_out),
        )
    }
}

#[cfg(test)]
mod tests {
    use super::*;
    use crate::ranges;
    use crate::rng::Rng;

    #[test]
    fn all_is_met_in_a_short_run() {
        let mut met = Settled::default();
        for index in 0..1000 {
            met.add(&ranges::random(&mut Rng::of_trial(1, index)));
        }
        let rest = [
            met.after_10,
            met.beside_an_a,
            met.b2_beside_the_other_a,
            met.too_long,
        ];
        let all = [
            &met.placed[..],
            &met.refused,
            &met.settled,
            &met.not_waiting,
            &met.outside,
            &met.taken_out,
            &rest,
        ];
        assert!(all.concat().iter().all(|&times| times > 0), "{met}");
    }
}
