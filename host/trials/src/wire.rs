//! The wire format, written from the paper alone and sharing nothing with the
//! library or its wrapper: streams as bytes, and answers as words. Everything
//! here that reads or writes a stream does it through this module.

const OPEN: u8 = 0x01;
pub const OPEN_WITH_TRAILER: u8 = 0x11;
const SHELVE: u8 = 0x02;
const COUNT: u8 = 0x03;
const WITHDRAW: u8 = 0x04;
const SWITCH: u8 = 0x05;
const RESERVE: u8 = 0x06;
const SETTLE: u8 = 0x07;

/// The largest capacity; the least is 1.
pub const MOST_CAPACITY: u32 = 16_777_216;
/// The largest stock; the least is 1.
pub const MOST_STOCK: u16 = 512;
/// The smallest m.
pub const LEAST_M: u8 = 6;
/// The largest m.
pub const MOST_M: u8 = 9;
/// The most commands after the opening.
pub const MOST_COMMANDS: usize = 4096;
/// The productions that draw on a stock.
pub const PRODUCTIONS: usize = 2;
/// The most bytes of a stream that is printed, as answers or as a sheet.
pub const MOST_PRINTED: usize = 32_768;

/// Whether a stream is short enough to be printed. Longer ones can be accepted, but
/// in the place of their sheet stands a line.
pub fn has_sheet(stream: &[u8]) -> bool {
    stream.len() <= MOST_PRINTED
}

/// Added to a refusal's number in an answer word.
const REFUSED: u16 = 32_768;

/// A refused stream or plan: the number, and the offset or place.
#[derive(Debug, Clone, Copy, PartialEq, Eq)]
pub struct Refusal {
    pub number: u32,
    pub at: usize,
}

pub fn refuse<T>(number: u32, at: usize) -> Result<T, Refusal> {
    Err(Refusal { number, at })
}

#[derive(Debug, Clone, Copy, PartialEq, Eq)]
pub struct Opening {
    pub capacity: u32,
    pub stock: u16,
    pub m: u8,
    /// The last operand of 11. The opening is 01 where there is none.
    pub trailer: Option<u16>,
}

/// By 01.
pub const fn opening(capacity: u32, stock: u16, m: u8) -> Opening {
    Opening {
        capacity,
        stock,
        m,
        trailer: None,
    }
}

impl Opening {
    /// The same by 11, with this trailer.
    pub const fn with_trailer(self, trailer: u16) -> Self {
        Self {
            trailer: Some(trailer),
            ..self
        }
    }

    /// Any trailer will do.
    fn within_limits(&self) -> bool {
        (1..=MOST_CAPACITY).contains(&self.capacity)
            && (1..=MOST_STOCK).contains(&self.stock)
            && (LEAST_M..=MOST_M).contains(&self.m)
    }

    pub fn bytes(&self) -> Vec<u8> {
        let opcode = match self.trailer {
            None => OPEN,
            Some(_) => OPEN_WITH_TRAILER,
        };
        let mut bytes = vec![opcode];
        bytes.extend(self.capacity.to_be_bytes());
        bytes.extend(self.stock.to_be_bytes());
        bytes.extend(self.m.to_be_bytes());
        bytes.extend(self.trailer.map(u16::to_be_bytes).into_iter().flatten());
        bytes
    }

    /// The stored size of an item of this size: exact, also past 32 bits.
    pub fn stored(&self, size: u32) -> u64 {
        u64::from(size) + u64::from(self.trailer.unwrap_or(0))
    }

    /// The size of an item whose stored size is this; the least size, where the
    /// trailer alone is as large.
    pub fn bare(&self, stored: u32) -> u32 {
        let bare = stored.saturating_sub(self.trailer.unwrap_or(0).into());
        bare.max(stored.min(1))
    }
}

/// A stored size in the 32 bits of a plan's entry. What passes them is above
/// every capacity, and so is the largest of them.
pub fn entry_size(stored: u64) -> u32 {
    u32::try_from(stored).unwrap_or(u32::MAX)
}

/// A command after the opening.
#[derive(Debug, Clone, Copy, PartialEq, Eq)]
pub enum Command {
    Shelve(u32),
    Count,
    /// Takes out what the command of this number shelved.
    Withdraw(u16),
    /// Makes the commands after it belong to this production.
    Switch(u8),
    /// Shelves an item that is of this least size and this greatest, by the
    /// greatest.
    Reserve(u32, u32),
    /// Tells the size of what the command of this number shelved so.
    Settle(u16, u32),
}

impl Command {
    /// The size that the command sends an item with, or with a range the greatest.
    pub fn item(self) -> Option<u32> {
        match self {
            Self::Shelve(size) | Self::Reserve(_, size) => Some(size),
            Self::Count | Self::Withdraw(_) | Self::Switch(_) | Self::Settle(..) => None,
        }
    }

    /// The number that it names a command by.
    pub fn names(self) -> Option<u16> {
        match self {
            Self::Withdraw(number) | Self::Settle(number, _) => Some(number),
            Self::Shelve(_) | Self::Count | Self::Switch(_) | Self::Reserve(..) => None,
        }
    }

    /// The same with another number in place of that which it names, if any.
    pub fn naming(self, number: u16) -> Self {
        match self {
            Self::Withdraw(_) => Self::Withdraw(number),
            Self::Settle(_, size) => Self::Settle(number, size),
            other => other,
        }
    }

    pub fn bytes(&self) -> Vec<u8> {
        match self {
            Self::Shelve(size) => [&[SHELVE][..], &size.to_be_bytes()].concat(),
            Self::Count => vec![COUNT],
            Self::Withdraw(number) => [&[WITHDRAW][..], &number.to_be_bytes()].concat(),
            Self::Switch(production) => vec![SWITCH, *production],
            Self::Reserve(least, greatest) => {
                let (least, greatest) = (least.to_be_bytes(), greatest.to_be_bytes());
                [&[RESERVE][..], &least, &greatest].concat()
            }
            Self::Settle(number, size) => {
                let (number, size) = (number.to_be_bytes(), size.to_be_bytes());
                [&[SETTLE][..], &number, &size].concat()
            }
        }
    }
}

/// A stream without a fault.
#[derive(Debug, Clone, PartialEq, Eq)]
pub struct Stream {
    pub opening: Opening,
    pub commands: Vec<Command>,
}

impl Stream {
    /// Items of these sizes, one after another.
    pub fn of_sizes(opening: Opening, sizes: &[u32]) -> Self {
        let commands = sizes.iter().copied().map(Command::Shelve).collect();
        Self { opening, commands }
    }

    /// Items of these stored sizes, one after another.
    pub fn of_stored(opening: Opening, stored: &[u32]) -> Self {
        let sizes: Vec<u32> = stored.iter().map(|&size| opening.bare(size)).collect();
        Self::of_sizes(opening, &sizes)
    }

    /// The bytes, a piece for the opening and one for each command.
    pub fn pieces(&self) -> Vec<Vec<u8>> {
        let commands = self.commands.iter().map(Command::bytes);
        std::iter::once(self.opening.bytes())
            .chain(commands)
            .collect()
    }

    pub fn bytes(&self) -> Vec<u8> {
        self.pieces().concat()
    }

    /// The production that each command belongs to; a switch to that before it.
    pub fn productions(&self) -> impl Iterator<Item = usize> + '_ {
        self.commands.iter().scan(0, |current, command| {
            let production = *current;
            if let Command::Switch(next) = *command {
                *current = next.into();
            }
            Some(production)
        })
    }

    /// The accepted items of a production by these answers, up to the first that
    /// it took out or settled, as a plan has them: each with its bin, by the
    /// greatest size if it has a range.
    pub fn placed(&self, answers: &[u16], production: usize) -> Vec<(u32, u32)> {
        let answered = self.commands.iter().zip(answers).zip(self.productions());
        let own = answered.filter(|&(_, its)| its == production);
        let accepted = own.filter_map(|((&command, &word), _)| Some((command, answer(word).ok()?)));
        let to_the_first = accepted.take_while(|(command, _)| command.names().is_none());
        let placed = to_the_first.filter_map(|(command, bin)| {
            let stored = self.opening.stored(command.item()?);
            Some((entry_size(stored), bin.into()))
        });
        placed.collect()
    }

    /// Reads a stream, or finds the refusal of its first faulty command.
    pub fn read(bytes: &[u8]) -> Result<Self, Refusal> {
        let mut parts = parts(bytes);
        let opening = match parts.next() {
            Some((_, Part::Opening(opening))) if opening.within_limits() => opening,
            Some((_, Part::Opening(_))) => return refuse(5, 0),
            Some((_, Part::CutShort([OPEN | OPEN_WITH_TRAILER, ..]))) => return refuse(3, 0),
            _ => return refuse(1, 0),
        };
        let mut commands = Vec::new();
        for (offset, part) in parts {
            if commands.len() == MOST_COMMANDS {
                return refuse(6, offset);
            }
            match part {
                Part::Command(Command::Switch(production))
                    if usize::from(production) >= PRODUCTIONS =>
                {
                    return refuse(18, offset)
                }
                Part::Command(command) => commands.push(command),
                Part::Unknown(_) => return refuse(2, offset),
                Part::Opening(_) | Part::CutShort([OPEN | OPEN_WITH_TRAILER, ..]) => {
                    return refuse(4, offset)
                }
                Part::CutShort(_) => return refuse(3, offset),
            }
        }
        Ok(Self { opening, commands })
    }
}

/// A command where it stands in a stream, faulty or not.
#[derive(Debug, Clone, Copy, PartialEq, Eq)]
pub enum Part<'a> {
    Opening(Opening),
    Command(Command),
    /// The byte is no command's.
    Unknown(u8),
    /// The stream ends before the operands do.
    CutShort(&'a [u8]),
}

impl Part<'_> {
    pub fn bytes(&self) -> Vec<u8> {
        match self {
            Self::Opening(opening) => opening.bytes(),
            Self::Command(command) => command.bytes(),
            Self::Unknown(byte) => vec![*byte],
            Self::CutShort(bytes) => bytes.to_vec(),
        }
    }
}

/// What any bytes consist of, each part with its offset.
pub fn parts(bytes: &[u8]) -> impl Iterator<Item = (usize, Part<'_>)> {
    let mut rest = bytes;
    std::iter::from_fn(move || {
        let offset = bytes.len() - rest.len();
        let (part, after) = first_part(rest)?;
        rest = after;
        Some((offset, part))
    })
}

fn first_part(bytes: &[u8]) -> Option<(Part<'_>, &[u8])> {
    Some(match *bytes {
        [] => return None,
        [OPEN, a, b, c, d, e, f, m, ref rest @ ..] => {
            (Part::Opening(opening_of([a, b, c, d, e, f, m])), rest)
        }
        [OPEN_WITH_TRAILER, a, b, c, d, e, f, m, t, u, ref rest @ ..] => {
            let trailer = u16::from_be_bytes([t, u]);
            let opening = opening_of([a, b, c, d, e, f, m]).with_trailer(trailer);
            (Part::Opening(opening), rest)
        }
        [SHELVE, a, b, c, d, ref rest @ ..] => {
            let size = u32::from_be_bytes([a, b, c, d]);
            (Part::Command(Command::Shelve(size)), rest)
        }
        [COUNT, ref rest @ ..] => (Part::Command(Command::Count), rest),
        [WITHDRAW, a, b, ref rest @ ..] => {
            let number = u16::from_be_bytes([a, b]);
            (Part::Command(Command::Withdraw(number)), rest)
        }
        [SWITCH, production, ref rest @ ..] => (Part::Command(Command::Switch(production)), rest),
        [RESERVE, a, b, c, d, e, f, g, h, ref rest @ ..] => {
            let least = u32::from_be_bytes([a, b, c, d]);
            let greatest = u32::from_be_bytes([e, f, g, h]);
            (Part::Command(Command::Reserve(least, greatest)), rest)
        }
        [SETTLE, a, b, c, d, e, f, ref rest @ ..] => {
            let number = u16::from_be_bytes([a, b]);
            let size = u32::from_be_bytes([c, d, e, f]);
            (Part::Command(Command::Settle(number, size)), rest)
        }
        [OPEN | OPEN_WITH_TRAILER | SHELVE | WITHDRAW | SWITCH | RESERVE | SETTLE, ..] => {
            (Part::CutShort(bytes), &[])
        }
        [byte, ref rest @ ..] => (Part::Unknown(byte), rest),
    })
}

/// The opening with these operands of 01.
fn opening_of([a, b, c, d, e, f, m]: [u8; 7]) -> Opening {
    let capacity = u32::from_be_bytes([a, b, c, d]);
    let stock = u16::from_be_bytes([e, f]);
    opening(capacity, stock, m)
}

/// The same by the other opening: one by 01 as it is, with a trailer of 0, and
/// one by 11 with the stored sizes. `None` if it starts with no opening, or an
/// opening by 11 is cut short.
pub fn by_other_opening(stream: &[u8]) -> Option<Vec<u8>> {
    let mut parts = parts(stream).map(|(_, part)| part);
    let opening = match parts.next()? {
        Part::Opening(opening) => opening,
        Part::CutShort([OPEN, operands @ ..]) => {
            return Some([&[OPEN_WITH_TRAILER], operands].concat());
        }
        _ => return None,
    };
    let trailer = match opening.trailer {
        None => Some(0),
        Some(_) => None,
    };
    let mut bytes = Opening { trailer, ..opening }.bytes();
    for part in parts {
        bytes.extend(match part {
            Part::Command(command) => by_stored_sizes(command, opening).bytes(),
            other => other.bytes(),
        });
    }
    Some(bytes)
}

/// The command with stored sizes, but for a size of 0 and a least of 0. What passes
/// 32 bits is the largest of them; a least above its greatest stays above it.
fn by_stored_sizes(command: Command, opening: Opening) -> Command {
    let stored = |size: u32| entry_size(opening.stored(size));
    match command {
        Command::Shelve(size @ 1..) => Command::Shelve(stored(size)),
        Command::Reserve(least @ 1.., greatest) => {
            let below = u32::from(least > greatest);
            Command::Reserve(stored(least), stored(greatest).min(u32::MAX - below))
        }
        Command::Reserve(0, greatest) => Command::Reserve(0, stored(greatest)),
        Command::Settle(number, size) => Command::Settle(number, stored(size)),
        other => other,
    }
}

/// An answer word: the bin, the count or the production, or else the refusal's
/// number.
pub fn answer(word: u16) -> Result<u16, u16> {
    if word < REFUSED {
        Ok(word)
    } else {
        Err(word - REFUSED)
    }
}

/// The answer word that tells of this refusal.
pub const fn refused_word(number: u16) -> u16 {
    REFUSED + number
}

#[cfg(test)]
mod tests {
    use super::*;

    /// The paper's sample with its first master and its count, in the paper's
    /// bytes, and then the requests' that take the master out, switch to the other
    /// production, shelve one of a range and settle it.
    const SAMPLE: [u8; 35] = [
        1, 0, 0, 0, 0x3C, 0, 4, 6, 2, 0, 0, 0, 0x23, 3, 4, 0, 1, 5, 1, 6, 0, 0, 1, 2, 0, 0, 3, 4,
        7, 0, 5, 0, 0, 2, 3,
    ];

    /// The same opened by the other command, with a trailer of 1,029.
    const TRAILED: [u8; 37] = [
        0x11, 0, 0, 0, 0x3C, 0, 4, 6, 4, 5, 2, 0, 0, 0, 0x23, 3, 4, 0, 1, 5, 1, 6, 0, 0, 1, 2, 0,
        0, 3, 4, 7, 0, 5, 0, 0, 2, 3,
    ];

    fn read_and_written(bytes: &[u8], opening: Opening) {
        let stream = Stream {
            opening,
            commands: vec![
                Command::Shelve(35),
                Command::Count,
                Command::Withdraw(1),
                Command::Switch(1),
                Command::Reserve(0x0102, 0x0304),
                Command::Settle(5, 0x0203),
            ],
        };
        assert_eq!(stream.bytes(), bytes);
        assert_eq!(Stream::read(bytes), Ok(stream));
        let len = opening.bytes().len();
        for cut in 0..bytes.len() {
            let expected = match cut.checked_sub(len) {
                None if cut == 0 => Some((1, 0)),
                None => Some((3, 0)),
                Some(1..=4) => Some((3, len)),
                Some(7..=8) => Some((3, len + 6)),
                Some(10) => Some((3, len + 9)),
                Some(12..=19) => Some((3, len + 11)),
                Some(21..=26) => Some((3, len + 20)),
                Some(_) => None,
            };
            let refusal = Stream::read(&bytes[..cut]).err();
            let refusal = refusal.map(|Refusal { number, at }| (number, at));
            assert_eq!(refusal, expected, "{cut} bytes");
        }
    }

    #[test]
    fn bytes_are_read_and_written_as_the_papers_have_them() {
        read_and_written(&SAMPLE, opening(60, 4, 6));
        read_and_written(&TRAILED, opening(60, 4, 6).with_trailer(1029));
    }

    #[test]
    fn either_opening_comes_once() {
        for stream in [&SAMPLE[..], &TRAILED] {
            for opening in [&SAMPLE[..8], &TRAILED[..10]] {
                for cut in 1..=opening.len() {
                    let second = [stream, &opening[..cut]].concat();
                    assert_eq!(Stream::read(&second), refuse(4, stream.len()));
                }
            }
        }
        for first in [0, 2, 3, 4, 5, 6, 7, 0x0B, 0x10, 0x12, 0xFF] {
            let mut stream = TRAILED;
            stream[0] = first;
            assert_eq!(Stream::read(&stream), refuse(1, 0));
        }
    }

    #[test]
    fn there_are_two_productions() {
        for production in 0..=u8::MAX {
            let stream = [&SAMPLE[..], &[5, production, 3]].concat();
            let refusal = Stream::read(&stream).err();
            let above = Refusal { number: 18, at: 35 };
            assert_eq!(refusal, (production > 1).then_some(above));
        }
    }

    #[test]
    fn a_command_belongs_to_the_production_switched_to() {
        use Command::{Shelve, Switch, Withdraw};
        let stream = Stream {
            opening: opening(60, 4, 6),
            commands: vec![
                Shelve(35),
                Switch(1),
                Shelve(22),
                Switch(1),
                Withdraw(1),
                Shelve(23),
                Switch(0),
                Shelve(36),
                Withdraw(1),
                Shelve(37),
            ],
        };
        let productions: Vec<usize> = stream.productions().collect();
        assert_eq!(productions, [0, 0, 1, 1, 1, 1, 1, 0, 0, 0]);
        let words = [1, 1, 1, 1, refused_word(17), 1, 0, 2, 1, 1];
        assert_eq!(stream.placed(&words, 0), [(35, 1), (36, 2)]);
        assert_eq!(stream.placed(&words, 1), [(22, 1), (23, 1)]);
    }

    #[test]
    fn what_is_placed_goes_by_the_greatest_up_to_the_first_settling() {
        use Command::{Reserve, Settle, Shelve};
        let stream = Stream {
            opening: opening(60, 4, 6).with_trailer(1),
            commands: vec![
                Reserve(20, 34),
                Settle(2, 20),
                Shelve(21),
                Settle(1, 30),
                Reserve(9, 10),
            ],
        };
        let words = [1, refused_word(20), 2, 1, 3];
        assert_eq!(stream.placed(&words, 0), [(35, 1), (22, 2)]);
        let unsettled = [1, refused_word(20), 2, refused_word(21), 3];
        let placed = [(35, 1), (22, 2), (11, 3)];
        assert_eq!(stream.placed(&unsettled, 0), placed);
    }

    #[test]
    fn a_trailer_has_no_limits() {
        for trailer in [0, 1, 59, 60, 61, u16::MAX] {
            let good = opening(60, 4, 6).with_trailer(trailer);
            assert!(Stream::read(&good.bytes()).is_ok());
            for (capacity, stock, m) in [(0, 4, 6), (60, 0, 6), (60, 4, 5), (60, 4, 10)] {
                let outside = opening(capacity, stock, m).with_trailer(trailer);
                assert_eq!(Stream::read(&outside.bytes()), refuse(5, 0));
            }
        }
    }

    #[test]
    fn stored_sizes_are_exact() {
        let open = opening(60, 4, 6);
        assert_eq!(open.stored(u32::MAX), 4_294_967_295);
        for (trailer, stored) in [
            (0, 4_294_967_295),
            (1, 4_294_967_296),
            (2, 4_294_967_297),
            (65_535, 4_295_032_830),
        ] {
            assert_eq!(open.with_trailer(trailer).stored(u32::MAX), stored);
            assert_eq!(entry_size(stored), u32::MAX);
        }
        let trailed = open.with_trailer(5);
        assert_eq!(
            [0, 1, 5, 6, 60].map(|stored| open.bare(stored)),
            [0, 1, 5, 6, 60]
        );
        assert_eq!(
            [0, 1, 5, 6, 60].map(|stored| trailed.bare(stored)),
            [0, 1, 1, 1, 55]
        );
    }

    #[test]
    fn a_trailer_of_0_takes_two_bytes() {
        let mut other = TRAILED;
        other[8..10].fill(0);
        assert_eq!(by_other_opening(&SAMPLE), Some(other.to_vec()));
        assert_eq!(by_other_opening(&other), Some(SAMPLE.to_vec()));
        for cut in 1..8 {
            let same_operands = Some(other[..cut].to_vec());
            assert_eq!(by_other_opening(&SAMPLE[..cut]), same_operands);
        }
        for stream in [&[][..], &TRAILED[..1], &TRAILED[..9], &[2, 1], &[0]] {
            assert_eq!(by_other_opening(stream), None);
        }
    }

    #[test]
    fn stored_sizes_stand_for_the_trailer() {
        let stream = |opening: Opening, sizes: [u32; 4]| {
            let faults = [&TRAILED[..10], &[9, 2, 1]].concat();
            [Stream::of_sizes(opening, &sizes).bytes(), faults].concat()
        };
        let open = opening(60, 4, 6);
        let trailed = stream(open.with_trailer(5), [0, 1, u32::MAX - 6, u32::MAX]);
        let stored = stream(open, [0, 6, u32::MAX - 1, u32::MAX]);
        assert_eq!(by_other_opening(&trailed), Some(stored));
    }

    #[test]
    fn stored_sizes_of_a_range_stand_for_the_trailer() {
        use Command::{Reserve, Settle};
        const MOST: u32 = u32::MAX;
        let opening = opening(60, 4, 6).with_trailer(5);
        for (command, stored) in [
            (Reserve(1, 9), Reserve(6, 14)),
            (Reserve(0, 9), Reserve(0, 14)),
            (Reserve(0, 0), Reserve(0, 5)),
            (Reserve(9, 0), Reserve(14, 5)),
            (Reserve(1, MOST), Reserve(6, MOST)),
            (Reserve(MOST, MOST), Reserve(MOST, MOST)),
            (Reserve(MOST - 1, MOST), Reserve(MOST, MOST)),
            // What is wrong with the range is still wrong with it.
            (Reserve(MOST, MOST - 1), Reserve(MOST, MOST - 1)),
            (Reserve(MOST - 4, MOST - 5), Reserve(MOST, MOST - 1)),
            (Reserve(MOST - 5, MOST - 6), Reserve(MOST, MOST - 1)),
            (Settle(7, 0), Settle(7, 5)),
            (Settle(7, 9), Settle(7, 14)),
            (Settle(7, MOST), Settle(7, MOST)),
        ] {
            assert_eq!(by_stored_sizes(command, opening), stored, "{command:?}");
        }
    }

    #[test]
    fn a_stream_is_its_parts_faulty_or_not() {
        let second = [2, 1, 9, 3, 5, 7, 1, 0, 6, 0, 7, 0];
        for cut in 0..=TRAILED.len() {
            let bytes = [&TRAILED[..cut], &second].concat();
            let mut offset = 0;
            let mut written = Vec::new();
            for (at, part) in parts(&bytes) {
                assert_eq!(at, offset);
                written.extend(part.bytes());
                offset = written.len();
            }
            assert_eq!(written, bytes);
        }
    }

    #[test]
    fn answers_and_words_go_both_ways() {
        assert_eq!(answer(0), Ok(0));
        assert_eq!(answer(32_767), Ok(32_767));
        for number in [8, 9, 10, 17, 19, 20, 21] {
            assert_eq!(answer(refused_word(number)), Err(number));
        }
    }
}
