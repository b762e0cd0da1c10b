//! The refusals, with the specification's numbers.

use std::error::Error;
use std::fmt;

/// Declares an enum of refusals: each case with its number and what it means.
macro_rules! refusals {
    ($(#[$attr:meta])* $name:ident { $($case:ident = $number:literal $meaning:literal)* }) => {
        $(#[$attr])*
        #[derive(Debug, Clone, Copy, PartialEq, Eq)]
        #[repr(u8)]
        pub enum $name {
            $(#[doc = concat!("Refusal ", $number, ": ", $meaning, ".")] $case = $number,)*
        }

        impl $name {
            /// The specification's number.
            pub fn number(self) -> u32 {
                self as u32
            }

            /// The case with this number, if it is one of these.
            pub fn from_number(number: u32) -> Option<Self> {
                match number {
                    $($number => Some(Self::$case),)*
                    _ => None,
                }
            }
        }

        impl fmt::Display for $name {
            fn fmt(&self, f: &mut fmt::Formatter<'_>) -> fmt::Result {
                f.write_str(match self {
                    $(Self::$case => $meaning,)*
                })
            }
        }
    };
}

refusals! {
    /// What is wrong with a stream as a whole.
    StreamFault {
        NotOpened = 1 "the stream is empty or does not start with an opening"
        UnknownCommand = 2 "unknown command byte"
        CutShort = 3 "operands cut short by the end of the stream"
        SecondOpening = 4 "a second opening"
        OpeningOutsideLimits = 5 "capacity, stock or m outside its limits"
        TooManyCommands = 6 "more than 4096 commands after the opening"
        TooFewWords = 7 "fewer words in a row than commands after the opening"
        NoSuchProduction = 18 "no production has that number"
    }
}

refusals! {
    /// Why one command was refused: 8 to 10 are of an item, 19 of one with a
    /// range in place of 8, 17 is of a withdrawal, 20 and 21 are of a settling. It
    /// changes nothing, and the stream goes on after it.
    CommandRefusal {
        SizeZero = 8 "size 0"
        SizeAboveCapacity = 9 "size and trailer above the capacity"
        StockSpent = 10 "a new cartridge is called for and the stock is spent"
        NotShelved = 17 "no master of that number is on the shelf"
        RangeWrong = 19 "the least size is 0 or above the greatest"
        NotReserved = 20 "no master of that number waits to be settled"
        OutsideRange = 21 "the size is outside the master's range"
    }
}

refusals! {
    /// What is wrong with a plan.
    PlanFault {
        CapacityOutsideLimits = 11 "capacity outside its limits"
        AboveLimit = 12 "more than 4096 entries, masters or cartridges"
        EntrySize = 13 "the size is 0 or above the capacity"
        EntryBin = 14 "the entry's cartridge is 0 or above k"
        Overfull = 15 "with this entry its cartridge exceeds the capacity"
        OtherItems = 16 "the plan is not of these masters"
    }
}

refusals! {
    /// What is wrong with a row of sizes, or with two, or with the row of answers lent
    /// beside them.
    RowFault {
        CapacityOutsideLimits = 11 "capacity outside its limits"
        AboveLimit = 12 "more than 4096 entries, masters or cartridges"
        SizeOutsideLimits = 13 "the size is 0 or above the capacity"
        TooFewWords = 22 "fewer answer words than sizes"
    }
}

/// A refused stream. Nothing was written.
#[derive(Debug, Clone, Copy, PartialEq, Eq)]
pub struct StreamRefusal {
    /// What is wrong.
    pub fault: StreamFault,
    /// The offset of the faulty command's byte; 0 for faults of the opening,
    /// the stream's length for too few words.
    pub offset: usize,
}

impl fmt::Display for StreamRefusal {
    fn fmt(&self, f: &mut fmt::Formatter<'_>) -> fmt::Result {
        let Self { fault, offset } = self;
        write!(f, "refusal {} at byte {offset}: {fault}", fault.number())
    }
}

impl Error for StreamRefusal {}

/// A plan that does not pass.
#[derive(Debug, Clone, Copy, PartialEq, Eq)]
pub struct PlanRefusal {
    /// What is wrong.
    pub fault: PlanFault,
    /// The entry's place, from 1; 0 for faults of no single entry; one more
    /// than the shorter length if the plan and the items differ in length.
    pub place: usize,
}

impl fmt::Display for PlanRefusal {
    fn fmt(&self, f: &mut fmt::Formatter<'_>) -> fmt::Result {
        let Self { fault, place } = self;
        write!(f, "refusal {} at place {place}: {fault}", fault.number())
    }
}

impl Error for PlanRefusal {}

/// A refused row of sizes, or two of them. Nothing was written.
#[derive(Debug, Clone, Copy, PartialEq, Eq)]
pub struct RowRefusal {
    /// What is wrong.
    pub fault: RowFault,
    /// The place of the first size outside its limits, from 1; 0 for faults of no
    /// single size. Of two rows the places of the second count on after the first.
    pub place: usize,
}

impl fmt::Display for RowRefusal {
    fn fmt(&self, f: &mut fmt::Formatter<'_>) -> fmt::Result {
        let Self { fault, place } = self;
        write!(f, "refusal {} at place {place}: {fault}", fault.number())
    }
}

impl Error for RowRefusal {}
