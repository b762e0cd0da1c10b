//! The specification in plain Rust, written from the paper alone and sharing
//! nothing with the library or its wrapper: bins are lists of items, a bin is
//! found by a scan, a load is a sum. Beside the scan stands the search that the
//! paper tells of, for its looks. [`wire`](crate::wire) is its reader.

use crate::wire::{refuse, refused_word, Command, Opening, Refusal, Stream};
use crate::wire::{MOST_CAPACITY, PRODUCTIONS};

/// The most entries of a plan and of its items, and the largest k.
pub const MOST_ENTRIES: usize = 4096;

/// What an accepted stream returns.
#[derive(Debug, Clone, Copy, PartialEq, Eq)]
pub struct Totals {
    pub items: usize,
    pub opened: usize,
    pub looks: usize,
}

#[derive(Debug, Clone, Copy, PartialEq, Eq)]
pub enum SizeClass {
    A,
    B1,
    B2,
    X,
}

pub fn size_class(size: u64, capacity: u64) -> SizeClass {
    if 2 * size > capacity {
        SizeClass::A
    } else if 5 * size > 2 * capacity {
        SizeClass::B1
    } else if 3 * size > capacity {
        SizeClass::B2
    } else {
        SizeClass::X
    }
}

pub struct Item {
    /// The number of the command that shelved it.
    pub number: usize,
    /// What it takes on its bin: the stored size, of one that waits to be settled
    /// the greatest.
    pub size: u64,
    /// The class that it was shelved by, which it keeps.
    pub class: SizeClass,
    /// The least and the greatest size as they were sent, till it is settled.
    pub range: Option<(u32, u32)>,
}

pub struct Bin {
    pub class: u32,
    pub items: Vec<Item>,
}

impl Bin {
    pub fn load(&self) -> u64 {
        self.items.iter().map(|item| item.size).sum()
    }
}

/// What a walk over the places of the stock hands back.
#[derive(Debug, Clone, Copy, PartialEq, Eq)]
pub struct Walk {
    /// The opened bins that it met: the figure that a count shows.
    pub figure: usize,
    /// The places that it read.
    pub places: usize,
}

/// What a search hands up.
#[derive(Debug, Clone, Copy, PartialEq, Eq)]
pub struct Search {
    /// The place that is left, if any has space.
    pub place: Option<usize>,
    /// The nodes whose largest free space it read.
    pub looks: usize,
}

impl Search {
    /// Searches a tree over a stock, of which the first places have this free
    /// space and the others none. The places number the least power of two that
    /// is not below the stock. A look is at the largest free space of some: first
    /// of all, and while the item fits, of the left half of those that are left.
    fn over(stock: u16, free: &[u64], size: u64) -> Self {
        let mut places = 1;
        while places < stock.into() {
            places *= 2;
        }
        let mut looks = 0;
        let mut fits = |places: &[u64]| {
            looks += 1;
            places.iter().max().is_some_and(|&largest| largest >= size)
        };
        let mut place = None;
        if fits(free) {
            // The first of the places left, and their free space as far as any has.
            let (mut first, mut left) = (0, free);
            while places > 1 {
                places /= 2;
                let (half, other) = left.split_at(places.min(left.len()));
                left = half;
                if !fits(half) {
                    first += places;
                    left = other;
                }
            }
            place = Some(first);
        }
        Self { place, looks }
    }
}

/// The search of a command.
pub struct Searched {
    /// The command's number.
    pub number: usize,
    pub search: Search,
    /// The place that the scan found.
    pub scanned: Option<usize>,
}

/// What a production has for itself.
#[derive(Default)]
pub struct Production {
    pub bins: Vec<Bin>,
    /// The walk of each count, beside the number of bins at that time.
    pub counts: Vec<(Walk, usize)>,
    b2_accepted: usize,
}

impl Production {
    /// Counts the opened bins: reads one place of the stock after another, from
    /// the first, and stops at the first whose bin is not yet opened.
    fn walk(&self, stock: u16) -> Walk {
        let mut walk = Walk {
            figure: 0,
            places: 0,
        };
        for place in 0..stock.into() {
            walk.places += 1;
            match self.bins.get(place) {
                Some(_) => walk.figure += 1,
                None => break,
            }
        }
        walk
    }

    /// Whether the item of the command with this number lies on one of the bins.
    pub fn holds(&self, number: usize) -> bool {
        let mut items = self.bins.iter().flat_map(|bin| &bin.items);
        items.any(|item| item.number == number)
    }
}

/// The productions over their one stock.
pub struct Packing {
    pub opening: Opening,
    pub productions: [Production; PRODUCTIONS],
    /// The searches of both, in the order of their commands.
    pub searches: Vec<Searched>,
    /// The production that commands belong to.
    current: usize,
}

impl Packing {
    pub fn new(opening: Opening) -> Self {
        Self {
            opening,
            productions: Default::default(),
            searches: Vec::new(),
            current: 0,
        }
    }

    /// The production that the next command belongs to.
    pub fn current(&self) -> &Production {
        &self.productions[self.current]
    }

    /// The one that it does not belong to.
    pub fn other(&self) -> &Production {
        &self.productions[1 - self.current]
    }

    /// The bins of both.
    pub fn bins(&self) -> impl Iterator<Item = &Bin> {
        self.productions
            .iter()
            .flat_map(|production| &production.bins)
    }

    /// Whether both together have opened the whole stock.
    fn is_spent(&self) -> bool {
        self.bins().count() == self.opening.stock.into()
    }

    /// Places the item of the command with this number, which is of this size, or
    /// of this range and then goes by the greatest: the number of its bin, or the
    /// refusal's number. All but refusals 8 and 19 goes by the stored size.
    fn place(&mut self, number: usize, bare: u32, range: Option<(u32, u32)>) -> Result<usize, u16> {
        match range {
            None if bare == 0 => return Err(8),
            Some((least, greatest)) if least == 0 || least > greatest => return Err(19),
            _ => {}
        }
        let capacity = self.opening.capacity.into();
        let size = self.opening.stored(bare);
        if size > capacity {
            return Err(9);
        }
        let is_spent = self.is_spent();
        let own = &mut self.productions[self.current];
        let its = size_class(size, capacity);
        let is_b2 = its == SizeClass::B2;
        let beside_an_a = is_b2 && (own.b2_accepted + 1).is_multiple_of(self.opening.m.into());
        let class = match its {
            SizeClass::A => 1,
            SizeClass::B1 => 2,
            SizeClass::B2 if beside_an_a => 1,
            SizeClass::B2 => 3,
            SizeClass::X => 4,
        };
        let permitted = |bin: &Bin| {
            let mut items = bin.items.iter();
            let mut holds_an_a = || items.any(|item| item.class == SizeClass::A);
            bin.class == class && (!beside_an_a || holds_an_a())
        };
        // One that is not permitted has no free space, and no item is of size 0.
        let free = own.bins.iter().map(|bin| match permitted(bin) {
            true => capacity - bin.load(),
            false => 0,
        });
        let free: Vec<u64> = free.collect();
        let scanned = free.iter().position(|&free| free >= size);
        self.searches.push(Searched {
            number,
            search: Search::over(self.opening.stock, &free, size),
            scanned,
        });
        let place = match scanned {
            Some(place) => place,
            None if is_spent => return Err(10),
            None => {
                let items = Vec::new();
                own.bins.push(Bin { class, items });
                own.bins.len() - 1
            }
        };
        own.bins[place].items.push(Item {
            number,
            size,
            class: its,
            range,
        });
        if is_b2 {
            own.b2_accepted += 1;
        }
        Ok(place + 1)
    }

    /// Takes out the item of the command with this number: the number of the
    /// bin that it leaves, or the refusal's number if it is on none of this
    /// production's.
    fn take_out(&mut self, number: usize) -> Result<usize, u16> {
        let own = &mut self.productions[self.current];
        for (bin, Bin { items, .. }) in (1..).zip(&mut own.bins) {
            if let Some(place) = items.iter().position(|item| item.number == number) {
                items.remove(place);
                return Ok(bin);
            }
        }
        Err(17)
    }

    /// Settles the size of the item of the command with this number: the number of
    /// its bin, or the refusal's number if none of this production's waits for
    /// that, or the size is outside its range. What is free grows by the rest.
    fn settle(&mut self, number: usize, bare: u32) -> Result<usize, u16> {
        let own = &mut self.productions[self.current];
        for (bin, Bin { items, .. }) in (1..).zip(&mut own.bins) {
            let mut items = items.iter_mut();
            if let Some(item) = items.find(|item| item.number == number) {
                let (least, greatest) = item.range.ok_or(20_u16)?;
                if bare < least || bare > greatest {
                    return Err(21);
                }
                item.size = self.opening.stored(bare);
                item.range = None;
                return Ok(bin);
            }
        }
        Err(20)
    }

    /// The most looks of a search; 0, where none was made.
    fn looks(&self) -> usize {
        let looks = self.searches.iter().map(|searched| searched.search.looks);
        looks.max().unwrap_or(0)
    }

    /// The units that are left free on a bin.
    pub fn free_units(&self, bin: &Bin) -> u64 {
        u64::from(self.opening.capacity) - bin.load()
    }

    /// Does what the command of this number asks; its word in each row.
    pub fn answer(&mut self, number: usize, command: Command) -> (u16, u32) {
        let bin = match command {
            Command::Count => {
                let own = &mut self.productions[self.current];
                let walk = own.walk(self.opening.stock);
                own.counts.push((walk, own.bins.len()));
                return (walk.figure as u16, 0);
            }
            Command::Switch(production) => {
                self.current = production.into();
                return (production.into(), 0);
            }
            Command::Shelve(size) => self.place(number, size, None),
            Command::Reserve(least, greatest) => {
                self.place(number, greatest, Some((least, greatest)))
            }
            Command::Withdraw(named) => self.take_out(named.into()),
            Command::Settle(named, size) => self.settle(named.into(), size),
        };
        match bin {
            Ok(bin) => {
                let free = self.free_units(&self.current().bins[bin - 1]);
                (bin as u16, free as u32)
            }
            Err(refusal) => (refused_word(refusal), 0),
        }
    }
}

/// What is made of a stream without a fault: its commands, each one's word in
/// each row, the packing that they leave, and each production's walk over that
/// after the last command.
pub struct Shelved {
    pub commands: Vec<Command>,
    pub answers: Vec<(u16, u32)>,
    pub packing: Packing,
    pub walks: [Walk; PRODUCTIONS],
}

/// Shelves a stream, whatever rows are lent with it: any refusal but 7.
pub fn shelve(stream: &[u8]) -> Result<Shelved, Refusal> {
    let Stream { opening, commands } = Stream::read(stream)?;
    let mut packing = Packing::new(opening);
    let numbered = (1..).zip(&commands);
    let answers = numbered.map(|(number, &command)| packing.answer(number, command));
    Ok(Shelved {
        answers: answers.collect(),
        commands,
        walks: packing
            .productions
            .each_ref()
            .map(|production| production.walk(opening.stock)),
        packing,
    })
}

/// Gives the answers of a stream to the two rows that are lent with it. Refusal
/// 7 comes last.
pub fn answer(
    stream: &[u8],
    shelved: &Result<Shelved, Refusal>,
    words: &mut [u16],
    free: &mut [u32],
) -> Result<Totals, Refusal> {
    let shelved = shelved.as_ref().map_err(|refusal| *refusal)?;
    let Shelved {
        answers, packing, ..
    } = shelved;
    if words.len() < answers.len() || free.len() < answers.len() {
        return refuse(7, stream.len());
    }
    for (place, &answer) in answers.iter().enumerate() {
        (words[place], free[place]) = answer;
    }
    Ok(Totals {
        items: packing.bins().map(|bin| bin.items.len()).sum(),
        opened: packing.bins().count(),
        looks: packing.looks(),
    })
}

/// Checks a plan of (size, bin) entries against the items.
pub fn check_plan(
    plan: &[(u32, u32)],
    items: &[u32],
    capacity: u32,
    k: u32,
) -> Result<(), Refusal> {
    if capacity == 0 || capacity > MOST_CAPACITY {
        return refuse(11, 0);
    }
    if k as usize > MOST_ENTRIES || plan.len() > MOST_ENTRIES || items.len() > MOST_ENTRIES {
        return refuse(12, 0);
    }
    if plan.len() != items.len() {
        return refuse(16, plan.len().min(items.len()) + 1);
    }
    let mut loads = vec![0; k as usize + 1];
    for (i, (&(size, bin), &item)) in plan.iter().zip(items).enumerate() {
        let place = i + 1;
        if size != item {
            return refuse(16, place);
        }
        if size == 0 || size > capacity {
            return refuse(13, place);
        }
        if bin == 0 || bin > k {
            return refuse(14, place);
        }
        let load: &mut u64 = &mut loads[bin as usize];
        *load += u64::from(size);
        if *load > u64::from(capacity) {
            return refuse(15, place);
        }
    }
    Ok(())
}
