//! The items that are still shelved, by the answers.

use std::collections::BTreeMap;

use crate::{answers, productions, Answer, Command, Entry, Opening, Production};

/// An item on the shelf.
#[derive(Debug, Clone, Copy, PartialEq, Eq)]
pub struct Item {
    /// The number of the command that shelved it.
    pub command: u16,
    /// The production whose item it is.
    pub production: Production,
    /// The number of its bin, from 1 in each production.
    pub bin: u16,
    /// The size that counts, without a trailer: that it was sent with, or settled
    /// at; and of one with a range the greatest, until it is settled.
    pub size: u32,
    /// The least that it may turn out to be, until it is settled.
    pub least: Option<u32>,
}

impl Item {
    /// What it takes up, the trailer included. An item on the shelf is no larger than
    /// the capacity.
    fn stored(&self, opening: &Opening) -> u32 {
        opening.stored(self.size).try_into().unwrap_or(u32::MAX)
    }
}

/// The items still shelved, told by one answer after another: those accepted and
/// not taken out, each with the size that counts.
///
/// ```
/// use shelf::{Items, Opening, Production, StreamBuilder};
///
/// let mut stream = StreamBuilder::open(60, 4, 6);
/// stream.shelve(22).reserve(20, 40).reserve(19, 21).withdraw(1).settle(2, 31);
/// let (mut words, mut free) = stream.rows();
/// shelf::shelve(stream.bytes(), &mut words, &mut free).expect("a well-formed stream");
///
/// let items = Items::after(stream.bytes(), &words, &free);
/// let sizes: Vec<_> = items.iter().map(|item| (item.command, item.bin, item.size)).collect();
/// assert_eq!(sizes, [(2, 2, 31), (3, 1, 21)]); // settled, and the greatest till then
///
/// // They are a plan of their own.
/// let opening = Opening::read(stream.bytes()).expect("it was accepted");
/// let plan = items.plan(&opening, Production::First);
/// let sizes = items.stored_sizes(&opening, Production::First);
/// let k = items.opened(Production::First).into();
/// assert!(shelf::check_plan(&plan, &sizes, opening.capacity, k).is_ok());
///
/// // And they can be repacked: 31 and 21 go into one bin.
/// let mut answers = vec![0; sizes.len()];
/// let repacked = shelf::repack(&sizes, &mut answers, opening.capacity, k).unwrap();
/// assert_eq!((&answers[..], repacked.count, repacked.saves_nothing), (&[1, 1][..], 1, false));
/// ```
#[derive(Debug, Clone, PartialEq, Eq, Default)]
pub struct Items {
    shelved: BTreeMap<u16, Item>,
    answered: u16,
    opened: [u16; 2],
}

impl Items {
    /// Those after an accepted stream that was answered with these words.
    pub fn after(stream: &[u8], words: &[u16], free: &[u32]) -> Self {
        let mut items = Self::default();
        let answers = answers(stream, words, free).zip(productions(stream));
        for ((command, answer), production) in answers {
            items.take_in(production, command, answer);
        }
        items
    }

    /// Takes in the answer to the next command, which belongs to this production.
    pub fn take_in(&mut self, production: Production, command: Command, answer: Answer) {
        // No accepted stream has so many commands that their number has an end.
        self.answered = self.answered.saturating_add(1);
        match (command, answer) {
            (Command::Shelve { size }, Answer::Placed { bin, .. }) => {
                self.place(production, bin, size, None);
            }
            (Command::Reserve { least, greatest }, Answer::Placed { bin, .. }) => {
                self.place(production, bin, greatest, Some(least));
            }
            (Command::Withdraw { number }, Answer::Withdrawn { .. }) => {
                self.shelved.remove(&number);
            }
            (Command::Settle { number, size }, Answer::Settled { .. }) => {
                if let Some(item) = self.shelved.get_mut(&number) {
                    (item.size, item.least) = (size, None);
                }
            }
            _ => {}
        }
    }

    /// Puts the item of the last command into this bin.
    fn place(&mut self, production: Production, bin: u16, size: u32, least: Option<u32>) {
        let opened = &mut self.opened[usize::from(production.number())];
        *opened = bin.max(*opened);
        let command = self.answered;
        let item = Item {
            command,
            production,
            bin,
            size,
            least,
        };
        self.shelved.insert(command, item);
    }

    /// The item that the command of this number shelved, if it is on the shelf.
    pub fn get(&self, number: u16) -> Option<&Item> {
        self.shelved.get(&number)
    }

    /// All of them, in the order of their commands.
    pub fn iter(&self) -> impl Iterator<Item = &Item> + '_ {
        self.shelved.values()
    }

    /// How many bins a production has opened, emptied or not: the `k` of its plan,
    /// and the old count when it is repacked.
    pub fn opened(&self, production: Production) -> u16 {
        self.opened[usize::from(production.number())]
    }

    /// The plan that a production's items are, by their stored sizes. Of an
    /// accepted stream it always passes.
    pub fn plan(&self, opening: &Opening, production: Production) -> Vec<Entry> {
        let entry = |item: &Item| Entry {
            size: item.stored(opening),
            bin: item.bin.into(),
        };
        self.of(production).map(entry).collect()
    }

    /// The stored sizes of a production's items, in the order of their commands: what
    /// its plan is checked against, and the row to [repack](crate::repack) it by. Of
    /// an accepted stream it is never refused.
    pub fn stored_sizes(&self, opening: &Opening, production: Production) -> Vec<u32> {
        let own = self.of(production);
        own.map(|item| item.stored(opening)).collect()
    }

    /// Those of a production, in the order of their commands.
    pub fn of(&self, production: Production) -> impl Iterator<Item = &Item> + '_ {
        self.iter()
            .filter(move |item| item.production == production)
    }
}
