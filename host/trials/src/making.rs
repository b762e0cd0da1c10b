//! Streams in the making. The shelf that a stream leaves is known while it is
//! made, by the paper, so that a command can name what lies there.

use crate::paper::{Bin, Item, Packing, Production};
use crate::rng::Rng;
use crate::wire::Command::{self, Count, Reserve, Settle, Shelve, Switch, Withdraw};
use crate::wire::{answer, Opening, Stream};

/// A stream in the making, and the shelf that it leaves so far.
pub struct Making {
    pub stream: Stream,
    pub shelf: Packing,
    /// The numbers of the items taken out, of those refused, and of the commands
    /// that send no item.
    gone: Vec<u16>,
    refused: Vec<u16>,
    counts: Vec<u16>,
    withdrawals: Vec<u16>,
    switches: Vec<u16>,
    settlings: Vec<u16>,
}

impl Making {
    pub fn new(opening: Opening) -> Self {
        Self {
            stream: Stream::of_sizes(opening, &[]),
            shelf: Packing::new(opening),
            gone: Vec::new(),
            refused: Vec::new(),
            counts: Vec::new(),
            withdrawals: Vec::new(),
            switches: Vec::new(),
            settlings: Vec::new(),
        }
    }

    pub fn len(&self) -> usize {
        self.stream.commands.len()
    }

    /// Sends a command; whether it is accepted.
    pub fn send(&mut self, command: Command) -> bool {
        self.stream.commands.push(command);
        let number = self.len();
        let accepted = answer(self.shelf.answer(number, command).0).is_ok();
        let number = number as u16;
        match command {
            Shelve(_) | Reserve(..) if accepted => {}
            Shelve(_) | Reserve(..) => self.refused.push(number),
            Count => self.counts.push(number),
            Withdraw(named) => {
                self.withdrawals.push(number);
                if accepted {
                    self.gone.push(named);
                }
            }
            Switch(_) => self.switches.push(number),
            Settle(..) => self.settlings.push(number),
        }
        accepted
    }

    /// A number to name: mostly that of an item of the current production, else
    /// one of those that are refused, each for another reason.
    pub fn name(&self, rng: &mut Rng) -> u16 {
        let own = self.len() as u16 + 1;
        let name = match rng.between(0, 29) {
            0..=14 => present(rng, self.shelf.current()),
            15..=16 => present(rng, self.shelf.other()),
            17..=18 => pick(rng, &self.gone),
            19..=20 => pick(rng, &self.refused),
            21 => pick(rng, &self.counts),
            22 => pick(rng, &self.withdrawals),
            23 => pick(rng, &self.switches),
            24 => pick(rng, &self.settlings),
            25 => Some(own),
            26 => Some(own + rng.between(1, 5) as u16),
            27 => Some(0),
            28 => Some(rng.pick(&[4095, 4096, 4097, 4098, 8192, 32_768, u16::MAX])),
            _ => Some(rng.word() as u16),
        };
        name.unwrap_or(own / 2)
    }

    /// A settling: mostly of an item of the current production that waits for it, by
    /// a size of its range or one beside that, else of one that does not wait, or by
    /// any number to name.
    pub fn settling(&self, rng: &mut Rng) -> Command {
        let (own, other) = (self.shelf.current(), self.shelf.other());
        let name = match rng.between(0, 19) {
            0..=13 => waiting(rng, own, true),
            14 => waiting(rng, other, true),
            15..=16 => waiting(rng, own, false),
            _ => None,
        };
        let name = name.unwrap_or_else(|| self.name(rng));
        let mut items = self.shelf.bins().flat_map(|bin| &bin.items);
        let named = items.find(|item| item.number == name.into());
        let (least, greatest) = named.and_then(|item| item.range).unwrap_or((1, 9));
        let size = match rng.between(0, 19) {
            0..=3 => least,
            4..=6 => greatest,
            7 => least - 1,
            8 => greatest.saturating_add(1),
            9 => rng.pick(&[0, 1, u32::MAX, self.stream.opening.capacity]),
            _ => rng.between(least.into(), greatest.into()) as u32,
        };
        Settle(name, size)
    }

    /// Takes out all that lies on a bin of the current production, in any order,
    /// if it has one.
    pub fn empty_one(&mut self, rng: &mut Rng) {
        let bins = &self.shelf.current().bins;
        if bins.is_empty() {
            return;
        }
        let mut numbers: Vec<u16> = numbers(&bins[rng.place(bins.len())]).collect();
        rng.shuffle(&mut numbers);
        for number in numbers {
            self.send(Withdraw(number));
        }
    }
}

/// The number of an item of a production, if there is one.
fn present(rng: &mut Rng, production: &Production) -> Option<u16> {
    let numbers = production.bins.iter().flat_map(numbers);
    pick(rng, &numbers.collect::<Vec<_>>())
}

/// The number of an item of a production that waits to be settled, or of one that
/// does not, if there is one.
pub fn waiting(rng: &mut Rng, production: &Production, waits: bool) -> Option<u16> {
    let items = production.bins.iter().flat_map(|bin| &bin.items);
    let items = items.filter(|item| item.range.is_some() == waits);
    let number = |item: &Item| item.number as u16;
    pick(rng, &items.map(number).collect::<Vec<_>>())
}

/// The numbers of the items on a bin.
pub fn numbers(bin: &Bin) -> impl Iterator<Item = u16> + '_ {
    bin.items.iter().map(|item| item.number as u16)
}

pub fn pick(rng: &mut Rng, numbers: &[u16]) -> Option<u16> {
    (!numbers.is_empty()).then(|| rng.pick(numbers))
}
