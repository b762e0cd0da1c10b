//! The shelves of both productions after a stream: what its sheet says of each
//! cartridge, and the masters that the answers leave there.

use shelf::{Answer, Command, Item, Items, Opening, Production, Row};

use crate::outcome::Answered;

/// Said once where both productions may have cartridges.
pub const OF_BOTH: &str = "cartridges are PRODUCTION:NUMBER";

/// What the cartridge of this number is called there.
pub fn name_of_both(production: Production, number: u16) -> String {
    format!("{}:{number}", production.number())
}

pub struct Bin {
    /// Its line of the sheet.
    pub row: Row,
    pub items: Vec<Item>,
}

impl Bin {
    /// The numbers of the commands that its items came with.
    pub fn commands(&self) -> impl Iterator<Item = u16> + '_ {
        self.items.iter().map(|item| item.command)
    }
}

pub struct Packing {
    pub opening: Opening,
    /// Those of production 0, then those of 1.
    pub bins: Vec<Bin>,
    /// The masters refused.
    pub refused: usize,
    /// The masters taken out again.
    pub withdrawn: usize,
    /// Those on the shelf whose size is not settled yet.
    unsettled: usize,
}

impl Packing {
    /// The packing that an accepted stream left, by its answers and the items that
    /// these leave.
    pub fn of(stream: &[u8], answers: &[Answered], items: &Items) -> Self {
        let opening = Opening::read(stream).expect("an accepted stream has an opening");
        let sheet = shelf::sheet(stream);
        let bin = |&row: &Row| Bin {
            row,
            items: Vec::new(),
        };
        let count = |counts: fn(&Answered) -> bool| answers.iter().filter(|&a| counts(a)).count();
        let mut packing = Self {
            opening,
            bins: sheet.rows().iter().map(bin).collect(),
            refused: count(is_refused_master),
            withdrawn: count(|answered| matches!(answered.answer, Answer::Withdrawn { .. })),
            unsettled: items.iter().filter(|item| item.least.is_some()).count(),
        };
        for item in items.iter() {
            let bin = packing.bin(item.production, item.bin);
            bin.items.push(*item);
        }
        packing
    }

    /// What an item takes up, its trailer included.
    pub fn stored(&self, item: &Item) -> u64 {
        self.opening.stored(item.size)
    }

    /// The bin of this number.
    fn bin(&mut self, production: Production, number: u16) -> &mut Bin {
        let first = self
            .bins
            .partition_point(|bin| bin.row.production < production);
        &mut self.bins[first + usize::from(number) - 1]
    }

    /// Whether production 1 has a cartridge: then a number alone names none.
    pub fn of_both(&self) -> bool {
        let last = self.bins.last();
        last.is_some_and(|bin| bin.row.production == Production::Second)
    }

    /// What a cartridge is called.
    pub fn name(&self, bin: &Bin) -> String {
        let Row {
            production, number, ..
        } = bin.row;
        match self.of_both() {
            true => name_of_both(production, number),
            false => number.to_string(),
        }
    }

    /// What the stream opened with. Where there is a trailer, the sizes shown are
    /// stored sizes, which add up to the loads.
    pub fn opened_with(&self) -> String {
        let Opening {
            capacity,
            stock,
            m,
            trailer,
        } = self.opening;
        let opening = format!("capacity {capacity}, stock {stock}, m {m}");
        match trailer {
            0 => opening,
            trailer => format!("{opening}, trailer {trailer} (sizes include it)"),
        }
    }

    /// How many masters were refused, and if any, how many were taken out again and
    /// how many count by their greatest size.
    pub fn besides(&self) -> String {
        let mut besides = format!("{} refused", self.refused);
        for (masters, what) in [(self.withdrawn, "withdrawn"), (self.unsettled, "unsettled")] {
            if masters > 0 {
                besides += &format!(", {masters} {what}");
            }
        }
        besides
    }

    pub fn items(&self) -> usize {
        self.bins.iter().map(|bin| usize::from(bin.row.held)).sum()
    }

    /// The units in use over all opened bins, and those they have.
    pub fn units(&self) -> (u64, u64) {
        let used = self.bins.iter().map(|bin| u64::from(bin.row.load)).sum();
        (
            used,
            u64::from(self.opening.capacity) * self.bins.len() as u64,
        )
    }
}

fn is_refused_master(answered: &Answered) -> bool {
    let of_master = matches!(
        answered.command,
        Command::Shelve { .. } | Command::Reserve { .. }
    );
    of_master && matches!(answered.answer, Answer::Refused(_))
}

#[cfg(test)]
mod tests {
    use super::*;
    use crate::outcome::Shelved;
    use shelf::{StreamBuilder, Totals};

    /// A packing and its totals: every third command takes out what a command
    /// before it shelved, or nothing; or goes to the other production, or stays.
    /// Half of the masters have a range, and half of these are settled.
    fn packing(mut stream: StreamBuilder, withdrawals: bool, switches: bool) -> (Packing, Totals) {
        for i in 0..600 {
            let size = i * 37 % 1_010;
            match i % 4 {
                0..=1 => stream.shelve(size).count(),
                2 => stream.reserve(size / 3 + 1, size).count(),
                _ => {
                    let number = stream.reserve(size / 3 + 1, size).commands();
                    stream.settle(number as u16, size / 2)
                }
            };
            if withdrawals {
                stream.withdraw((i * 71 % (3 * i + 5)) as u16);
            }
            if switches {
                stream.switch((i * 7 % 5 % 2) as u8);
            }
        }
        let Shelved {
            totals, packing, ..
        } = Shelved::of(stream.bytes()).unwrap();
        (packing, totals)
    }

    #[test]
    fn the_masters_of_a_cartridge_are_those_of_its_row() {
        let plain = StreamBuilder::open(1_000, 90, 7);
        let trailers = StreamBuilder::open_with_trailer(1_000, 90, 7, 20);
        let streams = [&plain, &trailers].map(|opening| {
            [(false, false), (true, false), (false, true), (true, true)]
                .map(|(withdrawals, switches)| (opening, withdrawals, switches))
        });
        for (opening, withdrawals, switches) in streams.concat() {
            let (packing, totals) = packing(opening.clone(), withdrawals, switches);
            assert_eq!(packing.bins.len(), usize::from(totals.opened));
            assert_eq!(packing.items(), usize::from(totals.items));
            let withdrawn = packing.withdrawn;
            assert_eq!(withdrawn > 20, withdrawals);
            assert_eq!(packing.items() + packing.refused + withdrawn, 600);
            assert_eq!(packing.of_both(), switches);
            let mut number = 0;
            for Bin { row, items } in &packing.bins {
                // Those of the second production are numbered from 1 again.
                number = if row.number == 1 { 1 } else { number + 1 };
                assert_eq!(row.number, number);
                assert_eq!(usize::from(row.held), items.len());
                let load: u64 = items.iter().map(|item| packing.stored(item)).sum();
                assert_eq!(u64::from(row.load), load);
            }
        }
    }

    #[test]
    fn refused_withdrawals_are_no_masters() {
        let mut stream = StreamBuilder::open(60, 4, 6);
        stream.shelve(35).shelve(61).withdraw(2).withdraw(4);
        let besides = |stream: &StreamBuilder| {
            let Shelved { packing, .. } = Shelved::of(stream.bytes()).unwrap();
            packing.besides()
        };
        assert_eq!(besides(&stream), "1 refused");
        stream.withdraw(1);
        assert_eq!(besides(&stream), "1 refused, 1 withdrawn");
        stream.reserve(2, 1).settle(6, 1).settle(1, 35);
        assert_eq!(besides(&stream), "2 refused, 1 withdrawn");
        let range = stream.reserve(1, 2).commands() as u16;
        assert_eq!(besides(&stream), "2 refused, 1 withdrawn, 1 unsettled");
        stream.settle(range, 2);
        assert_eq!(besides(&stream), "2 refused, 1 withdrawn");
    }
}
