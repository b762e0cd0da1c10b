//! Streams as bytes, and answers as words.

use std::iter::Zip;
use std::slice::Iter;

use crate::{CommandRefusal, Production};

const OPEN: u8 = 0x01;
const OPEN_WITH_TRAILER: u8 = 0x11;
const SHELVE: u8 = 0x02;
const COUNT: u8 = 0x03;
const WITHDRAW: u8 = 0x04;
const SWITCH: u8 = 0x05;
const RESERVE: u8 = 0x06;
const SETTLE: u8 = 0x07;

/// An answer word with this bit carries a refusal's number.
const REFUSED: u16 = 0x8000;

/// What a stream opens with.
#[derive(Debug, Clone, Copy, PartialEq, Eq)]
pub struct Opening {
    /// The capacity of a bin.
    pub capacity: u32,
    /// The stock of bins.
    pub stock: u16,
    /// Every `m`-th B2 item goes beside an A item.
    pub m: u8,
    /// The units written after each item; 0 in a stream without trailers.
    pub trailer: u16,
}

impl Opening {
    /// The opening that a stream starts with, of either kind, within its limits
    /// or not.
    ///
    /// ```
    /// use shelf::{Opening, StreamBuilder};
    ///
    /// let stream = StreamBuilder::open(60, 4, 6);
    /// let opening = Opening { capacity: 60, stock: 4, m: 6, trailer: 0 };
    /// assert_eq!(Opening::read(stream.bytes()), Some(opening));
    /// assert_eq!(Opening::read(&stream.bytes()[..7]), None);
    ///
    /// let stream = StreamBuilder::open_with_trailer(60, 4, 6, 3);
    /// let opening = Opening { trailer: 3, ..opening };
    /// assert_eq!(Opening::read(stream.bytes()), Some(opening));
    /// ```
    pub fn read(stream: &[u8]) -> Option<Self> {
        Self::split(stream).map(|(opening, _commands)| opening)
    }

    /// The opening, and the commands after it.
    fn split(stream: &[u8]) -> Option<(Self, &[u8])> {
        let (&[byte, a, b, c, d, e, f, m], rest) = stream.split_first_chunk()?;
        let (trailer, commands) = match byte {
            OPEN => (0, rest),
            OPEN_WITH_TRAILER => {
                let (&trailer, commands) = rest.split_first_chunk()?;
                (u16::from_be_bytes(trailer), commands)
            }
            _ => return None,
        };
        let opening = Self {
            capacity: u32::from_be_bytes([a, b, c, d]),
            stock: u16::from_be_bytes([e, f]),
            m,
            trailer,
        };
        Some((opening, commands))
    }

    /// The stored size of an item: what it takes up on its bin, the trailer
    /// included. It may pass 32 bits; of an item on the shelf it is at most the
    /// capacity.
    ///
    /// ```
    /// let opening = shelf::Opening { capacity: 60, stock: 4, m: 6, trailer: 3 };
    /// assert_eq!(opening.stored(22), 25);
    /// assert_eq!(opening.stored(u32::MAX), 4_294_967_298);
    /// ```
    pub fn stored(&self, size: u32) -> u64 {
        u64::from(size) + u64::from(self.trailer)
    }
}

/// Writes a stream: an opening, then commands.
///
/// Limits are the library's business; whatever fits the operands' width can be
/// written.
///
/// ```
/// let mut stream = shelf::StreamBuilder::open(60, 4, 6);
/// stream.shelve(35).count().withdraw(1);
/// assert_eq!(stream.commands(), 3);
/// assert_eq!(stream.bytes(), [1, 0, 0, 0, 60, 0, 4, 6, 2, 0, 0, 0, 35, 3, 4, 0, 1]);
/// ```
#[derive(Debug, Clone, PartialEq, Eq)]
pub struct StreamBuilder {
    bytes: Vec<u8>,
    commands: usize,
}

impl StreamBuilder {
    /// A stream with its opening: the capacity of a bin, the stock of bins,
    /// and `m` (every `m`-th B2 item goes beside an A item).
    pub fn open(capacity: u32, stock: u16, m: u8) -> Self {
        Self::start(OPEN, capacity, stock, m)
    }

    /// The same, where so many units are written after each item: it takes up
    /// its [stored size](Opening::stored), by which it is placed or refused.
    ///
    /// ```
    /// let mut stream = shelf::StreamBuilder::open_with_trailer(60, 4, 6, 3);
    /// stream.shelve(35);
    /// assert_eq!(stream.bytes(), [0x11, 0, 0, 0, 60, 0, 4, 6, 0, 3, 2, 0, 0, 0, 35]);
    /// ```
    pub fn open_with_trailer(capacity: u32, stock: u16, m: u8, trailer: u16) -> Self {
        let mut stream = Self::start(OPEN_WITH_TRAILER, capacity, stock, m);
        stream.bytes.extend(trailer.to_be_bytes());
        stream
    }

    fn start(byte: u8, capacity: u32, stock: u16, m: u8) -> Self {
        let mut bytes = vec![byte];
        bytes.extend(capacity.to_be_bytes());
        bytes.extend(stock.to_be_bytes());
        bytes.push(m);
        Self { bytes, commands: 0 }
    }

    /// Shelve an item of this size. A trailer is not part of it.
    pub fn shelve(&mut self, size: u32) -> &mut Self {
        self.bytes.push(SHELVE);
        self.bytes.extend(size.to_be_bytes());
        self.commands += 1;
        self
    }

    /// Ask how many bins the production has opened.
    pub fn count(&mut self) -> &mut Self {
        self.bytes.push(COUNT);
        self.commands += 1;
        self
    }

    /// Take out the item that the command of this number shelved for the same
    /// production. The commands after the opening are numbered from 1, those of
    /// both productions together.
    ///
    /// ```
    /// let mut stream = shelf::StreamBuilder::open(60, 4, 6);
    /// let feature = stream.count().shelve(35).commands(); // its number, 2
    /// stream.shelve(22).withdraw(feature as u16);
    /// assert!(stream.bytes().ends_with(&[4, 0, 2]));
    /// ```
    pub fn withdraw(&mut self, number: u16) -> &mut Self {
        self.bytes.push(WITHDRAW);
        self.bytes.extend(number.to_be_bytes());
        self.commands += 1;
        self
    }

    /// Shelve an item whose size is known within a range only: it is placed by
    /// the greatest, until [`settle`](Self::settle) tells its size. A trailer is
    /// not part of either.
    ///
    /// ```
    /// let mut stream = shelf::StreamBuilder::open(60, 4, 6);
    /// let feature = stream.reserve(30, 40).commands(); // its number, 1
    /// stream.shelve(22).settle(feature as u16, 34);
    /// assert_eq!(stream.bytes()[8..17], [6, 0, 0, 0, 30, 0, 0, 0, 40]);
    /// assert_eq!(stream.bytes()[22..], [7, 0, 1, 0, 0, 0, 34]);
    /// ```
    pub fn reserve(&mut self, least: u32, greatest: u32) -> &mut Self {
        self.bytes.push(RESERVE);
        self.bytes.extend(least.to_be_bytes());
        self.bytes.extend(greatest.to_be_bytes());
        self.commands += 1;
        self
    }

    /// Tell the size of the item that the [`reserve`](Self::reserve) of this number
    /// shelved for the same production, once: from then on the item takes up so
    /// much. A trailer is not part of it.
    pub fn settle(&mut self, number: u16, size: u32) -> &mut Self {
        self.bytes.push(SETTLE);
        self.bytes.extend(number.to_be_bytes());
        self.bytes.extend(size.to_be_bytes());
        self.commands += 1;
        self
    }

    /// Make the commands after it belong to this production, or to that of this
    /// number. A stream starts in the first.
    ///
    /// ```
    /// use shelf::Production;
    ///
    /// let mut stream = shelf::StreamBuilder::open(60, 4, 6);
    /// stream.shelve(35).switch(Production::Second).shelve(22);
    /// assert!(stream.bytes().ends_with(&[2, 0, 0, 0, 35, 5, 1, 2, 0, 0, 0, 22]));
    /// ```
    pub fn switch(&mut self, production: impl Into<u8>) -> &mut Self {
        self.bytes.extend([SWITCH, production.into()]);
        self.commands += 1;
        self
    }

    /// The number of commands after the opening, which is that of the last one.
    pub fn commands(&self) -> usize {
        self.commands
    }

    /// The stream so far.
    pub fn bytes(&self) -> &[u8] {
        &self.bytes
    }

    /// The finished stream.
    pub fn into_bytes(self) -> Vec<u8> {
        self.bytes
    }

    /// The two rows to lend with this stream, just long enough: of answer
    /// words, and of free units.
    pub fn rows(&self) -> (Vec<u16>, Vec<u32>) {
        (vec![0; self.commands], vec![0; self.commands])
    }
}

/// The answer to one command.
#[derive(Debug, Clone, Copy, PartialEq, Eq)]
pub enum Answer {
    /// The item lies in this bin.
    Placed {
        /// The bin's number, from 1 in each production.
        bin: u16,
        /// The units left free on the bin just after the item, which takes up its
        /// greatest size if it has a range. Until another command is answered this
        /// bin, an item that is permitted there fits exactly if its stored size is
        /// at most this.
        free: u32,
    },
    /// The item was taken out of this bin.
    Withdrawn {
        /// The number of the bin that it left, as the command that shelved it
        /// was answered.
        bin: u16,
        /// The units free on the bin just after that.
        free: u32,
    },
    /// The size of the item in this bin is settled.
    Settled {
        /// The number of the bin, as the command that shelved the item was
        /// answered.
        bin: u16,
        /// The units free on the bin just after that.
        free: u32,
    },
    /// The production has opened so many bins.
    Counted {
        /// The number of bins.
        opened: u16,
    },
    /// The commands after this one belong to this production.
    Switched(Production),
    /// The command was refused, and left everything as it was.
    Refused(CommandRefusal),
}

impl Answer {
    /// Reads the answer to a command from its word and the free units beside
    /// it. `None` if the library answers it by no such words.
    ///
    /// ```
    /// use shelf::{Answer, Command, CommandRefusal, Production};
    ///
    /// let shelve = Command::Shelve { size: 35 };
    /// let placed = Answer::Placed { bin: 7, free: 25 };
    /// assert_eq!(Answer::to(shelve, 7, 25), Some(placed));
    /// let refused = Answer::Refused(CommandRefusal::StockSpent);
    /// assert_eq!(Answer::to(shelve, 32_768 + 10, 0), Some(refused));
    /// let counted = Answer::Counted { opened: 7 };
    /// assert_eq!(Answer::to(Command::Count, 7, 0), Some(counted));
    /// let withdraw = Command::Withdraw { number: 3 };
    /// let withdrawn = Answer::Withdrawn { bin: 7, free: 60 };
    /// assert_eq!(Answer::to(withdraw, 7, 60), Some(withdrawn));
    /// let reserve = Command::Reserve { least: 30, greatest: 35 };
    /// assert_eq!(Answer::to(reserve, 7, 25), Some(placed));
    /// let settle = Command::Settle { number: 3, size: 31 };
    /// let settled = Answer::Settled { bin: 7, free: 29 };
    /// assert_eq!(Answer::to(settle, 7, 29), Some(settled));
    /// let switch = Command::Switch(Production::Second);
    /// let switched = Answer::Switched(Production::Second);
    /// assert_eq!(Answer::to(switch, 1, 0), Some(switched));
    ///
    /// assert_eq!(Answer::to(shelve, 0, 60), None);
    /// assert_eq!(Answer::to(Command::Count, 7, 25), None);
    /// assert_eq!(Answer::to(withdraw, 32_768 + 10, 0), None);
    /// assert_eq!(Answer::to(switch, 0, 0), None);
    /// ```
    pub fn to(command: Command, word: u16, free: u32) -> Option<Self> {
        let answer = match command {
            Command::Count => Self::Counted { opened: word },
            Command::Switch(production) if word == production.number().into() => {
                Self::Switched(production)
            }
            Command::Switch(_) => return None,
            _ if word & REFUSED != 0 => {
                let number = word & !REFUSED;
                let why = CommandRefusal::from_number(number.into())?;
                Self::Refused(Some(why).filter(|&why| command.may_be_refused(why))?)
            }
            Command::Shelve { .. } | Command::Reserve { .. } => {
                return (word != 0).then_some(Self::Placed { bin: word, free });
            }
            // The units that the item took up are free at least.
            Command::Withdraw { .. } => {
                return (word != 0 && free != 0).then_some(Self::Withdrawn { bin: word, free });
            }
            // One that is settled at its greatest leaves a full bin full.
            Command::Settle { .. } => {
                return (word != 0).then_some(Self::Settled { bin: word, free });
            }
        };
        (free == 0).then_some(answer)
    }
}

/// A command after the opening.
#[derive(Debug, Clone, Copy, PartialEq, Eq)]
pub enum Command {
    /// Shelve an item.
    Shelve {
        /// The item's size, without a trailer.
        size: u32,
    },
    /// Ask how many bins the production has opened.
    Count,
    /// Take out an item.
    Withdraw {
        /// The number of the command that shelved it.
        number: u16,
    },
    /// Make the commands after it belong to this production.
    Switch(Production),
    /// Shelve an item whose size is known within a range only.
    Reserve {
        /// The least that it may be, without a trailer.
        least: u32,
        /// The greatest, by which it is shelved.
        greatest: u32,
    },
    /// Tell the size of an item that has a range.
    Settle {
        /// The number of the command that shelved it.
        number: u16,
        /// The item's size, without a trailer.
        size: u32,
    },
}

impl Command {
    /// Whether this is one of the refusals that the command can be answered.
    fn may_be_refused(self, why: CommandRefusal) -> bool {
        use CommandRefusal::*;
        match self {
            Self::Shelve { .. } => matches!(why, SizeZero | SizeAboveCapacity | StockSpent),
            Self::Reserve { .. } => matches!(why, RangeWrong | SizeAboveCapacity | StockSpent),
            Self::Withdraw { .. } => why == NotShelved,
            Self::Settle { .. } => matches!(why, NotReserved | OutsideRange),
            Self::Count | Self::Switch(_) => false,
        }
    }
}

/// The commands after the opening, each with the offset of its byte. They end
/// at the first one that is unknown, cut short or a switch to no production;
/// without an opening there are none.
///
/// ```
/// use shelf::{Command, Production, StreamBuilder};
///
/// let mut stream = StreamBuilder::open(60, 4, 6);
/// stream.shelve(35).count().withdraw(1).switch(Production::Second);
/// stream.reserve(30, 40).settle(5, 34);
/// let commands: Vec<_> = shelf::commands(stream.bytes()).collect();
/// assert_eq!(commands, [
///     (8, Command::Shelve { size: 35 }),
///     (13, Command::Count),
///     (14, Command::Withdraw { number: 1 }),
///     (17, Command::Switch(Production::Second)),
///     (19, Command::Reserve { least: 30, greatest: 40 }),
///     (28, Command::Settle { number: 5, size: 34 }),
/// ]);
/// ```
pub fn commands(stream: &[u8]) -> Commands<'_> {
    let rest = Opening::split(stream).map_or(&[][..], |(_opening, commands)| commands);
    Commands {
        offset: stream.len() - rest.len(),
        rest,
    }
}

/// The production that each command after the opening belongs to; a switch
/// belongs to the one before it.
///
/// ```
/// use shelf::Production::{First, Second};
///
/// let mut stream = shelf::StreamBuilder::open(60, 4, 6);
/// stream.shelve(35).switch(Second).shelve(22).switch(First).count();
/// let productions: Vec<_> = shelf::productions(stream.bytes()).collect();
/// assert_eq!(productions, [First, First, Second, Second, First]);
/// ```
pub fn productions(stream: &[u8]) -> impl Iterator<Item = Production> + '_ {
    commands(stream).scan(Production::First, |current, (_, command)| {
        let production = *current;
        if let Command::Switch(next) = command {
            *current = next;
        }
        Some(production)
    })
}

/// The iterator that [`commands`] returns.
#[derive(Debug, Clone)]
pub struct Commands<'a> {
    offset: usize,
    rest: &'a [u8],
}

impl Iterator for Commands<'_> {
    type Item = (usize, Command);

    fn next(&mut self) -> Option<(usize, Command)> {
        let (command, rest) = match *self.rest {
            [SHELVE, a, b, c, d, ref rest @ ..] => {
                let size = u32::from_be_bytes([a, b, c, d]);
                (Command::Shelve { size }, rest)
            }
            [COUNT, ref rest @ ..] => (Command::Count, rest),
            [WITHDRAW, a, b, ref rest @ ..] => {
                let number = u16::from_be_bytes([a, b]);
                (Command::Withdraw { number }, rest)
            }
            [SWITCH, number, ref rest @ ..] => {
                (Command::Switch(Production::from_number(number)?), rest)
            }
            [RESERVE, a, b, c, d, e, f, g, h, ref rest @ ..] => {
                let least = u32::from_be_bytes([a, b, c, d]);
                let greatest = u32::from_be_bytes([e, f, g, h]);
                (Command::Reserve { least, greatest }, rest)
            }
            [SETTLE, a, b, c, d, e, f, ref rest @ ..] => {
                let number = u16::from_be_bytes([a, b]);
                let size = u32::from_be_bytes([c, d, e, f]);
                (Command::Settle { number, size }, rest)
            }
            _ => return None,
        };
        let offset = self.offset;
        self.offset += self.rest.len() - rest.len();
        self.rest = rest;
        Some((offset, command))
    }
}

/// Pairs the commands of an accepted stream with their answers, in order.
///
/// A word does not tell a bin's number from a count; the command does. On a
/// stream that was refused, or with words that the library did not write, the
/// answers end at the first one that makes no sense.
///
/// ```
/// use shelf::{Answer, Command, StreamBuilder};
///
/// let mut stream = StreamBuilder::open(60, 4, 6);
/// stream.shelve(35).count().withdraw(1);
/// let (mut words, mut free) = stream.rows();
/// shelf::shelve(stream.bytes(), &mut words, &mut free).expect("a well-formed stream");
///
/// let mut answers = shelf::answers(stream.bytes(), &words, &free);
/// let placed = (Command::Shelve { size: 35 }, Answer::Placed { bin: 1, free: 25 });
/// assert_eq!(answers.next(), Some(placed));
/// assert_eq!(answers.next(), Some((Command::Count, Answer::Counted { opened: 1 })));
/// let withdrawn = (Command::Withdraw { number: 1 }, Answer::Withdrawn { bin: 1, free: 60 });
/// assert_eq!(answers.next(), Some(withdrawn));
/// assert_eq!(answers.next(), None);
/// ```
pub fn answers<'a>(stream: &'a [u8], words: &'a [u16], free: &'a [u32]) -> Answers<'a> {
    Answers {
        commands: commands(stream),
        words: words.iter().zip(free),
    }
}

/// The iterator that [`answers`] returns.
#[derive(Debug, Clone)]
pub struct Answers<'a> {
    commands: Commands<'a>,
    words: Zip<Iter<'a, u16>, Iter<'a, u32>>,
}

impl Iterator for Answers<'_> {
    type Item = (Command, Answer);

    fn next(&mut self) -> Option<(Command, Answer)> {
        let (_offset, command) = self.commands.next()?;
        let (&word, &free) = self.words.next()?;
        Some((command, Answer::to(command, word, free)?))
    }
}

#[cfg(test)]
mod tests {
    use super::*;

    /// The words that may answer a command, and what they say.
    fn read(command: Command, words: &[(u16, u32)]) -> Vec<Option<Answer>> {
        let read = |&(word, free): &(u16, u32)| Answer::to(command, word, free);
        words.iter().map(read).collect()
    }

    #[test]
    fn each_command_has_its_own_refusals() {
        let numbers = [8, 9, 10, 17, 19, 20, 21, 7, 11, 18, 22];
        let commands: [(Command, &[u16]); 6] = [
            (Command::Shelve { size: 1 }, &[8, 9, 10]),
            (Command::Count, &[]),
            (Command::Withdraw { number: 1 }, &[17]),
            (Command::Switch(Production::First), &[]),
            (
                Command::Reserve {
                    least: 1,
                    greatest: 2,
                },
                &[9, 10, 19],
            ),
            (Command::Settle { number: 1, size: 1 }, &[20, 21]),
        ];
        for (command, own) in commands {
            for number in numbers {
                let why = CommandRefusal::from_number(number.into());
                let refused = why.filter(|_| own.contains(&number)).map(Answer::Refused);
                let read = |free: u32| Answer::to(command, REFUSED | number, free);
                // A count has no refusals, and no limits here.
                if command != Command::Count {
                    assert_eq!(read(0), refused, "{command:?}, {number}");
                }
                assert_eq!(read(1), None, "{command:?}, {number}");
            }
        }
    }

    #[test]
    fn a_settling_may_leave_a_full_bin() {
        let settle = Command::Settle { number: 9, size: 1 };
        let settled = |free: u32| Some(Answer::Settled { bin: 3, free });
        let words = [(3, 1), (3, 0), (0, 1)];
        assert_eq!(read(settle, &words), [settled(1), settled(0), None]);
    }

    #[test]
    fn a_withdrawal_leaves_units_free() {
        let withdraw = Command::Withdraw { number: 9 };
        let words = [(3, 1), (3, 0), (0, 1)];
        let withdrawn = Answer::Withdrawn { bin: 3, free: 1 };
        assert_eq!(read(withdraw, &words), [Some(withdrawn), None, None]);
    }

    #[test]
    fn a_switch_is_answered_by_its_own_production() {
        let words = [(0, 0), (1, 0), (2, 0), (0, 1), (1, 1), (REFUSED | 17, 0)];
        for (at, production) in Production::BOTH.into_iter().enumerate() {
            let mut expected = [None; 6];
            expected[at] = Some(Answer::Switched(production));
            assert_eq!(read(Command::Switch(production), &words), expected);
        }
    }

    #[test]
    fn either_opening_is_read_whole_or_not_at_all() {
        let mut plain = StreamBuilder::open(60, 4, 6);
        let mut with_trailer = StreamBuilder::open_with_trailer(60, 4, 6, 0x1234);
        for (stream, len, trailer) in [(&mut plain, 8, 0), (&mut with_trailer, 10, 0x1234)] {
            let bytes = stream.count().bytes();
            assert_eq!(commands(bytes).next(), Some((len, Command::Count)));
            for end in 0..=bytes.len() {
                let read = Opening::read(&bytes[..end]);
                let trailer = (end >= len).then_some(trailer);
                assert_eq!(read.map(|opening| opening.trailer), trailer);
                let commands = commands(&bytes[..end]).count();
                assert_eq!(commands, usize::from(end > len));
            }
        }
        let other = [&[0x10], &with_trailer.bytes()[1..]].concat();
        assert_eq!(Opening::read(&other), None);
        assert_eq!(commands(&other).next(), None);
    }

    #[test]
    fn commands_end_at_one_cut_short() {
        let mut stream = StreamBuilder::open(60, 4, 6);
        stream.withdraw(0x1234).count();
        let bytes = stream.bytes();
        let withdraw = (8, Command::Withdraw { number: 0x1234 });
        let read = |len: usize| commands(&bytes[..len]).collect::<Vec<_>>();
        assert_eq!(read(12), [withdraw, (11, Command::Count)]);
        assert_eq!(read(11), [withdraw]);
        assert_eq!(read(10), []);
        assert_eq!(read(9), []);
    }

    #[test]
    fn two_operands_are_read_in_their_order_and_whole() {
        let (least, greatest) = (0x0102_0304, 0x0506_0708);
        let (number, size) = (0x090A, 0x0B0C_0D0E);
        let mut stream = StreamBuilder::open(60, 4, 6);
        stream.reserve(least, greatest).settle(number, size).count();
        let bytes = stream.bytes();
        let written = [6, 1, 2, 3, 4, 5, 6, 7, 8, 7, 9, 10, 11, 12, 13, 14, 3];
        assert_eq!(bytes[8..], written);
        let all = [
            (8, Command::Reserve { least, greatest }),
            (17, Command::Settle { number, size }),
            (24, Command::Count),
        ];
        for len in 8..=bytes.len() {
            let whole = [17, 24, 25].iter().filter(|&&end| end <= len).count();
            let read: Vec<_> = commands(&bytes[..len]).collect();
            assert_eq!(read, all[..whole], "{len} bytes");
        }
    }

    #[test]
    fn commands_end_at_a_switch_to_no_production() {
        let mut stream = StreamBuilder::open(60, 4, 6);
        stream.switch(Production::Second).switch(2).count();
        let bytes = stream.bytes();
        assert_eq!(stream.commands(), 3);
        assert_eq!(bytes[8..], [5, 1, 5, 2, 3]);
        let switch = (8, Command::Switch(Production::Second));
        assert_eq!(commands(bytes).collect::<Vec<_>>(), [switch]);
        assert_eq!(commands(&bytes[..9]).next(), None);
    }
}
