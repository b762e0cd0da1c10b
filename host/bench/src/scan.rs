//! The same answers by trying the bins one after another, without looks, as there
//! are no nodes. Streams must be well formed and the rows long enough: this one is
//! here to be timed, not trusted.

struct Bin {
    class: u8,
    /// The A items that it holds.
    held_a: u32,
    free: u32,
}

/// What one production has.
#[derive(Default)]
struct Store {
    bins: Vec<Bin>,
    b2_accepted: u32,
}

impl Store {
    fn for_bins(bins: u16) -> Self {
        Self {
            bins: Vec::with_capacity(bins.into()),
            b2_accepted: 0,
        }
    }
}

/// Where an item lies, and what it takes up.
struct Item {
    production: usize,
    place: usize,
    size: u32,
    /// Whether it was shelved as an A, which it stays.
    is_a: bool,
    /// The sizes that it may be settled at, without the trailer, till it is.
    range: Option<(u32, u32)>,
}

/// A shelf that answers one command after another, by both words.
pub struct Scan {
    capacity: u32,
    /// The bins that neither production has opened.
    unopened: usize,
    m: u32,
    trailer: u64,
    /// The production that the commands belong to, and what each has.
    production: usize,
    stores: [Store; 2],
    /// Each command's item, while it is shelved.
    items: Vec<Option<Item>>,
    shelved: u64,
}

const fn refused(number: u16) -> (u16, u32) {
    (0x8000 + number, 0)
}

impl Scan {
    pub fn open(capacity: u32, stock: u16, m: u8, trailer: u16) -> Self {
        Self {
            capacity,
            unopened: stock.into(),
            m: m.into(),
            trailer: trailer.into(),
            production: 0,
            stores: [Store::for_bins(stock), Store::default()],
            items: Vec::new(),
            shelved: 0,
        }
    }

    pub fn shelve(&mut self, bare: u32) -> (u16, u32) {
        self.items.push(None);
        match bare {
            0 => refused(8),
            _ => self.place(bare, None),
        }
    }

    pub fn reserve(&mut self, least: u32, greatest: u32) -> (u16, u32) {
        self.items.push(None);
        match least {
            1.. if least <= greatest => self.place(greatest, Some((least, greatest))),
            _ => refused(19),
        }
    }

    /// Places the item of the last command, which is of this size, or of this range.
    fn place(&mut self, bare: u32, range: Option<(u32, u32)>) -> (u16, u32) {
        let capacity = self.capacity;
        // The sum may pass 32 bits.
        let stored = u64::from(bare) + self.trailer;
        if stored > capacity.into() {
            return refused(9);
        }
        let size = stored as u32;
        let production = self.production;
        let Store { bins, b2_accepted } = &mut self.stores[production];
        let is_a = 2 * size > capacity;
        let is_b2 = 3 * size > capacity && 5 * size <= 2 * capacity;
        let beside_an_a = is_b2 && (*b2_accepted + 1).is_multiple_of(self.m);
        let class = if is_a || beside_an_a {
            1
        } else if 5 * size > 2 * capacity {
            2
        } else if is_b2 {
            3
        } else {
            4
        };
        let fits =
            |bin: &Bin| bin.class == class && bin.free >= size && (!beside_an_a || bin.held_a > 0);
        let place = match bins.iter().position(fits) {
            Some(place) => place,
            None if self.unopened == 0 => return refused(10),
            None => {
                self.unopened -= 1;
                bins.push(Bin {
                    class,
                    held_a: 0,
                    free: capacity,
                });
                bins.len() - 1
            }
        };
        let bin = &mut bins[place];
        bin.free -= size;
        bin.held_a += u32::from(is_a);
        *b2_accepted += u32::from(is_b2);
        self.shelved += 1;
        let last = self.items.len() - 1;
        self.items[last] = Some(Item {
            production,
            place,
            size,
            is_a,
            range,
        });
        (place as u16 + 1, bin.free)
    }

    /// A number that is kept: what a walk costs shows beside it.
    pub fn count(&mut self) -> (u16, u32) {
        self.items.push(None);
        (self.stores[self.production].bins.len() as u16, 0)
    }

    pub fn withdraw(&mut self, number: u16) -> (u16, u32) {
        self.items.push(None);
        let named = usize::from(number).wrapping_sub(1);
        let own = |item: &mut Item| item.production == self.production;
        let named = self.items.get_mut(named);
        let Some(item) = named.and_then(|item| item.take_if(own)) else {
            return refused(17);
        };
        let bin = &mut self.stores[self.production].bins[item.place];
        bin.free += item.size;
        bin.held_a -= u32::from(item.is_a);
        self.shelved -= 1;
        (item.place as u16 + 1, bin.free)
    }

    pub fn settle(&mut self, number: u16, bare: u32) -> (u16, u32) {
        self.items.push(None);
        let named = usize::from(number).wrapping_sub(1);
        let named = self.items.get_mut(named).and_then(Option::as_mut);
        let own = named.filter(|item| item.production == self.production);
        let Some((item, (least, greatest))) =
            own.and_then(|item| item.range.map(|its| (item, its)))
        else {
            return refused(20);
        };
        if bare < least || bare > greatest {
            return refused(21);
        }
        // It is no larger than its greatest, with which the sum fits.
        let size = bare + self.trailer as u32;
        let bin = &mut self.stores[item.production].bins[item.place];
        bin.free += item.size - size;
        (item.size, item.range) = (size, None);
        (item.place as u16 + 1, bin.free)
    }

    pub fn switch(&mut self, production: u8) -> (u16, u32) {
        self.items.push(None);
        self.production = production.into();
        (production.into(), 0)
    }

    fn opened(&self) -> usize {
        self.stores.iter().map(|store| store.bins.len()).sum()
    }
}

pub fn shelve(stream: &[u8], answers: &mut [u16], free: &mut [u32]) -> u64 {
    let capacity = u32::from_be_bytes([stream[1], stream[2], stream[3], stream[4]]);
    let stock = u16::from_be_bytes([stream[5], stream[6]]);
    let (trailer, mut rest) = match *stream {
        [0x11, _, _, _, _, _, _, _, t0, t1, ref rest @ ..] => (u16::from_be_bytes([t0, t1]), rest),
        _ => (0, &stream[8..]),
    };
    let mut scan = Scan::open(capacity, stock, stream[7], trailer);
    for (word, left) in answers.iter_mut().zip(free) {
        (*word, *left) = match *rest {
            [0x02, a, b, c, d, ref after @ ..] => {
                rest = after;
                scan.shelve(u32::from_be_bytes([a, b, c, d]))
            }
            [0x04, a, b, ref after @ ..] => {
                rest = after;
                scan.withdraw(u16::from_be_bytes([a, b]))
            }
            [0x05, production, ref after @ ..] => {
                rest = after;
                scan.switch(production)
            }
            [0x06, a, b, c, d, e, f, g, h, ref after @ ..] => {
                rest = after;
                let least = u32::from_be_bytes([a, b, c, d]);
                scan.reserve(least, u32::from_be_bytes([e, f, g, h]))
            }
            [0x07, a, b, c, d, e, f, ref after @ ..] => {
                rest = after;
                let number = u16::from_be_bytes([a, b]);
                scan.settle(number, u32::from_be_bytes([c, d, e, f]))
            }
            [_, ref after @ ..] => {
                rest = after;
                scan.count()
            }
            [] => break,
        };
    }
    scan.shelved << 16 | scan.opened() as u64
}
