//! The streams to time: 4,096 commands each over a stock of 512.

use shelf::{Production, StreamBuilder, MAX_COMMANDS, MAX_STOCK};

use crate::scan::Scan;

pub const CAPACITY: u32 = 1_000_000;
const M: u8 = 6;
/// The trailer of the mix that has one.
const TRAILER: u16 = 10_000;

pub struct Mix {
    pub name: &'static str,
    /// A size from the generator's numbers.
    size: fn(&mut Numbers) -> u32,
    besides: Besides,
}

/// What is sent besides items.
enum Besides {
    Nothing,
    /// A trailer, with the opening.
    Trailer,
    /// A count after every item, as panels send them.
    Counts,
    /// About every third command is a withdrawal, of an item on the shelf but
    /// for a few.
    Withdrawals,
    /// Once the stock is spent, an item is taken out before every item.
    Refills,
    /// Most items have a range; some are settled later, and some are taken out.
    Ranges,
    /// A switch to the other production after so many items, from the least to
    /// the most.
    Switches(u32, u32),
}

pub const MIXES: [Mix; 14] = [
    // Any size; the stock is soon spent, and most are refused.
    Mix {
        name: "uniform",
        size: |numbers| numbers.between(1, CAPACITY),
        besides: Besides::Nothing,
    },
    // Every class, and the stock suffices.
    Mix {
        name: "all-fit",
        size: of_every_class,
        besides: Besides::Nothing,
    },
    Mix {
        name: "small-x",
        size: |numbers| numbers.between(1, CAPACITY / 64),
        besides: Besides::Nothing,
    },
    // X items over most of the stock.
    Mix {
        name: "mid-x",
        size: |numbers| numbers.between(CAPACITY / 16, CAPACITY / 8),
        besides: Besides::Nothing,
    },
    // 512 A items, then each is refused.
    Mix {
        name: "spent-a",
        size: |numbers| numbers.between(CAPACITY / 2 + 1, CAPACITY),
        besides: Besides::Nothing,
    },
    Mix {
        name: "b2-heavy",
        size: |numbers| match numbers.between(1, 10) {
            1..=7 => numbers.between(CAPACITY / 3 + 1, CAPACITY / 5 * 2),
            8..=9 => numbers.between(CAPACITY / 2 + 1, CAPACITY / 4 * 3),
            _ => numbers.between(1, CAPACITY / 100),
        },
        besides: Besides::Nothing,
    },
    // X items over some tens of bins, so that every walk is short.
    Mix {
        name: "count-short",
        size: |numbers| numbers.between(1, CAPACITY / 24),
        besides: Besides::Counts,
    },
    // 512 A items, then each is refused, and every walk reads the whole stock.
    Mix {
        name: "count-full",
        size: |numbers| numbers.between(CAPACITY / 2 + 1, CAPACITY),
        besides: Besides::Counts,
    },
    // Any size; what is taken out makes space for some.
    Mix {
        name: "withdrawn",
        size: |numbers| numbers.between(1, CAPACITY),
        besides: Besides::Withdrawals,
    },
    // 512 A items, then each finds the one bin that was just emptied.
    Mix {
        name: "refilled",
        size: |numbers| numbers.between(CAPACITY / 2 + 1, CAPACITY),
        besides: Besides::Refills,
    },
    // Any size that fits with its trailer; the stock is soon spent.
    Mix {
        name: "trailer",
        size: |numbers| numbers.between(1, CAPACITY - u32::from(TRAILER)),
        besides: Besides::Trailer,
    },
    // Every class, in either production, and the stock suffices for both.
    Mix {
        name: "productions",
        size: of_every_class,
        besides: Besides::Switches(3, 5),
    },
    // The same, with every second command a switch.
    Mix {
        name: "alternating",
        size: of_every_class,
        besides: Besides::Switches(1, 1),
    },
    // Every class, with settlings and withdrawals, and the stock suffices.
    Mix {
        name: "ranges",
        size: of_every_class,
        besides: Besides::Ranges,
    },
];

/// A size of any class, mostly X.
fn of_every_class(numbers: &mut Numbers) -> u32 {
    match numbers.between(1, 100) {
        1..=3 => numbers.between(CAPACITY / 2 + 1, CAPACITY),
        4..=7 => numbers.between(CAPACITY / 5 * 2 + 1, CAPACITY / 2),
        8..=11 => numbers.between(CAPACITY / 3 + 1, CAPACITY / 5 * 2),
        _ => numbers.between(1, CAPACITY / 12),
    }
}

impl Mix {
    /// The stream of this number, the same in every run.
    pub fn stream(&self, seed: u64) -> StreamBuilder {
        let mut numbers = Numbers::new(seed);
        let mut making = match self.besides {
            Besides::Trailer => Making::with_trailer(TRAILER),
            _ => Making::new(),
        };
        while making.stream.commands() < MAX_COMMANDS {
            let withdraws = match self.besides {
                Besides::Withdrawals => numbers.between(1, 3) == 1,
                Besides::Refills => making.shelved.len() == MAX_STOCK.into(),
                _ => false,
            };
            match self.besides {
                _ if withdraws => making.withdraw(&mut numbers),
                Besides::Ranges => making.ranges((self.size)(&mut numbers), &mut numbers),
                Besides::Switches(least, most) if making.to_switch == 0 => {
                    making.switch(numbers.between(least, most));
                }
                _ => making.shelve((self.size)(&mut numbers)),
            }
            if let Besides::Counts = self.besides {
                making.count();
            }
        }
        making.stream
    }
}

/// A stream in the making, with what lies on its shelf.
struct Making {
    stream: StreamBuilder,
    shelf: Scan,
    /// The numbers of the items on the shelf, and of those taken out.
    shelved: Vec<u16>,
    gone: Vec<u16>,
    /// The ranges of those that wait to be settled, by their numbers.
    waiting: Vec<(u16, u32, u32)>,
    /// The production that the commands belong to, and the items up to the next
    /// switch, where there are any.
    production: Production,
    to_switch: u32,
}

impl Making {
    fn new() -> Self {
        Self {
            stream: StreamBuilder::open(CAPACITY, MAX_STOCK, M),
            shelf: Scan::open(CAPACITY, MAX_STOCK, M, 0),
            shelved: Vec::new(),
            gone: Vec::new(),
            waiting: Vec::new(),
            production: Production::First,
            to_switch: 1,
        }
    }

    fn with_trailer(trailer: u16) -> Self {
        Self {
            stream: StreamBuilder::open_with_trailer(CAPACITY, MAX_STOCK, M, trailer),
            shelf: Scan::open(CAPACITY, MAX_STOCK, M, trailer),
            ..Self::new()
        }
    }

    fn shelve(&mut self, size: u32) {
        self.stream.shelve(size);
        let (word, _) = self.shelf.shelve(size);
        if word < 0x8000 {
            self.shelved.push(self.stream.commands() as u16);
        }
        self.to_switch = self.to_switch.saturating_sub(1);
    }

    /// One of eight commands shelves an item of this size, three one that is of this
    /// size at the greatest, three settle one and one takes one out.
    fn ranges(&mut self, size: u32, numbers: &mut Numbers) {
        match numbers.between(1, 8) {
            1 => self.shelve(size),
            2..=4 => self.reserve(numbers.between(size.div_ceil(2), size), size),
            5 => self.withdraw(numbers),
            _ => self.settle(numbers),
        }
    }

    fn reserve(&mut self, least: u32, greatest: u32) {
        self.stream.reserve(least, greatest);
        let (word, _) = self.shelf.reserve(least, greatest);
        if word < 0x8000 {
            let number = self.stream.commands() as u16;
            self.shelved.push(number);
            self.waiting.push((number, least, greatest));
        }
    }

    /// Settles an item that waits for it, where there is one.
    fn settle(&mut self, numbers: &mut Numbers) {
        let (number, size) = match self.waiting.len() {
            0 => (0, 1),
            waiting => {
                let place = numbers.between(0, waiting as u32 - 1) as usize;
                let (number, least, greatest) = self.waiting.swap_remove(place);
                (number, numbers.between(least, greatest))
            }
        };
        self.stream.settle(number, size);
        self.shelf.settle(number, size);
    }

    fn count(&mut self) {
        self.stream.count();
        self.shelf.count();
    }

    /// Takes out an item on the shelf, where there is one; one time in twenty it
    /// names one that is gone already.
    fn withdraw(&mut self, numbers: &mut Numbers) {
        let again = numbers.between(1, 20) == 1;
        let number = if again && !self.gone.is_empty() {
            self.gone[numbers.place(&self.gone)]
        } else if self.shelved.is_empty() {
            0
        } else {
            let number = self.shelved.swap_remove(numbers.place(&self.shelved));
            self.gone.push(number);
            self.waiting.retain(|&(waiting, ..)| waiting != number);
            number
        };
        self.stream.withdraw(number);
        self.shelf.withdraw(number);
    }

    /// Switches to the other production, for so many items.
    fn switch(&mut self, items: u32) {
        self.production = match self.production {
            Production::First => Production::Second,
            Production::Second => Production::First,
        };
        self.stream.switch(self.production);
        self.shelf.switch(self.production.number());
        self.to_switch = items;
    }
}

/// A linear congruential generator of 64 bits, read from the top.
pub struct Numbers(u64);

impl Numbers {
    pub fn new(seed: u64) -> Self {
        Self(seed)
    }

    pub fn between(&mut self, least: u32, most: u32) -> u32 {
        self.0 = self
            .0
            .wrapping_mul(6_364_136_223_846_793_005)
            .wrapping_add(1_442_695_040_888_963_407);
        least + ((self.0 >> 33) % u64::from(most - least + 1)) as u32
    }

    /// A place in a row that is not empty.
    fn place(&mut self, row: &[u16]) -> usize {
        self.between(0, row.len() as u32 - 1) as usize
    }
}
