//! Safe calls into the proved shelving library: Refined First-Fit over a
//! command stream, the vault sheet of a stream, the plan checker,
//! First-Fit-Decreasing for a closed shelf, and as many pairs of a picture and a
//! sound as can be had.
//!
//! Build a stream, lend it with two rows of words, read the answers:
//!
//! ```
//! use shelf::{Answer, CommandRefusal, StreamBuilder};
//!
//! let mut stream = StreamBuilder::open(60, 2, 6); // capacity 60, stock 2, every 6th B2
//! stream.shelve(35).shelve(30).count().shelve(40).withdraw(1);
//!
//! let (mut words, mut free) = stream.rows();
//! let totals = shelf::shelve(stream.bytes(), &mut words, &mut free).expect("a well-formed stream");
//! assert_eq!((totals.items, totals.opened), (1, 2)); // still shelved, and opened
//! assert_eq!(totals.looks, 1); // none of the searches found a bin with space
//!
//! let answers = shelf::answers(stream.bytes(), &words, &free);
//! let answers: Vec<Answer> = answers.map(|(_command, answer)| answer).collect();
//! assert_eq!(answers, [
//!     Answer::Placed { bin: 1, free: 25 }, // 25 units are left on it just after the item
//!     Answer::Placed { bin: 2, free: 30 },
//!     Answer::Counted { opened: 2 },
//!     Answer::Refused(CommandRefusal::StockSpent),
//!     Answer::Withdrawn { bin: 1, free: 60 }, // the item of command 1 has left it
//! ]);
//! ```
//!
//! The number of a bin is its place in the order of opening, from 1. A bin that
//! is emptied stays opened and is chosen again like any other of its class.
//! Refusals keep the numbers 1 to 22 of the specification; `number` gives them.
//!
//! Where a trailer is written after each item, the opening has its length
//! ([`StreamBuilder::open_with_trailer`]). An item then takes up its stored size
//! ([`Opening::stored`]): its bin, the loads, the free units and the shelf's own
//! plan go by that.
//!
//! An item whose size is known within a range only is shelved by the greatest
//! ([`StreamBuilder::reserve`]), and takes up its true size once that is told
//! ([`StreamBuilder::settle`]). [`Items`] has what is still shelved, with the sizes
//! that count.
//!
//! Two productions may draw on one stock. A stream starts in the first, and
//! [`StreamBuilder::switch`] makes the commands after it belong to either. Each
//! [`Production`] has bins of its own, numbered from 1; the stock is spent once
//! both together have opened it all.
//!
//! What is still shelved when a shelf is closed can be copied onto fresh bins, often
//! fewer of them: [`repack`] says which item goes to which. And where a picture and a
//! sound are to share a bin, [`pair`] says which two.

mod items;
mod production;
mod refusals;
mod results;
mod sheet;
mod stream;

pub use items::{Item, Items};
pub use production::Production;
pub use refusals::{CommandRefusal, PlanFault, PlanRefusal};
pub use refusals::{RowFault, RowRefusal, StreamFault, StreamRefusal};
pub use sheet::{Row, Sheet};
pub use stream::{answers, commands, productions};
pub use stream::{Answer, Answers, Command, Commands, Opening, StreamBuilder};

/// The largest capacity of a bin.
pub const MAX_CAPACITY: u32 = 16_777_216;
/// The most bins that a stock can have.
pub const MAX_STOCK: u16 = 512;
/// The smallest `m`.
pub const MIN_M: u8 = 6;
/// The largest `m`.
pub const MAX_M: u8 = 9;
/// The longest trailer, which may be above the capacity.
pub const MAX_TRAILER: u16 = 65_535;
/// The most commands that may follow the opening.
pub const MAX_COMMANDS: usize = 4_096;
/// The most entries of a plan, the most items it is checked against, the largest
/// `k`, and the most sizes of a row that is repacked or paired.
pub const MAX_ENTRIES: usize = 4_096;
/// The longest stream that a sheet is made of, in bytes.
pub const MAX_SHEET_STREAM: usize = 32_768;
/// The most bytes of a sheet: a line of 41 for each of 512 bins and 12 pages.
pub const SHEET_BYTES: usize = 21_484;

/// The most [looks](Totals::looks) that a search ever takes over this stock, known
/// before the stream is opened: `1 + h`, where `h` is the least number with `2^h`
/// at least the stock. No stream opens with a stock of 0 or one above
/// [`MAX_STOCK`]: these are taken for 1 and for [`MAX_STOCK`].
///
/// ```
/// use shelf::most_looks;
///
/// const BUDGET: u8 = most_looks(shelf::MAX_STOCK);
/// assert_eq!(BUDGET, 10);
/// assert_eq!([1, 2, 3, 4, 5].map(most_looks), [1, 2, 3, 3, 4]);
/// assert_eq!([256, 257, 511, 512].map(most_looks), [9, 10, 10, 10]);
/// assert_eq!([0, 513, u16::MAX].map(most_looks), [1, 10, 10]);
/// ```
pub const fn most_looks(stock: u16) -> u8 {
    let stock = if stock > MAX_STOCK { MAX_STOCK } else { stock };
    1 + stock.next_power_of_two().ilog2() as u8
}

/// The most bins that a production ever opens of which no item was taken out or
/// settled, where a plan of its items, by stored sizes (the greatest, of an item
/// with a range), that [`check_plan`] passes uses `k` bins: three times their
/// number is at most `5 * k + 5`. For every `k` from 1 to [`MAX_STOCK`] and every
/// `m` there is a stream that opens so many, with the largest stock; of a smaller
/// one no more than that are opened.
///
/// ```
/// assert_eq!(shelf::most_opened(2), 5); // capacity 11: 6, 5, 6, 4 and 1
/// assert_eq!(shelf::most_opened(100), 168);
/// ```
pub const fn most_opened(k: u32) -> u16 {
    match k {
        0 => 0,
        1..=306 => ((5 * k + 5) / 3) as u16,
        _ => MAX_STOCK,
    }
}

mod ffi {
    extern "C" {
        pub fn shelf_stream(
            stream: *const u8,
            stream_len: usize,
            answers: *mut u16,
            answers_len: usize,
            free_units: *mut u32,
            free_len: usize,
        ) -> u64;

        pub fn shelf_sheet(stream: *const u8, stream_len: usize, sheet: *mut u8) -> u64;

        pub fn shelf_check_plan(
            sizes: *const u32,
            sizes_len: usize,
            bins: *const u32,
            bins_len: usize,
            items: *const u32,
            items_len: usize,
            capacity: u32,
            k: u32,
        ) -> u64;

        pub fn shelf_repack(
            sizes: *const u32,
            sizes_len: usize,
            answers: *mut u16,
            answers_len: usize,
            capacity: u32,
            old: u32,
        ) -> u64;

        pub fn shelf_pair(
            pictures: *const u32,
            pictures_len: usize,
            sounds: *const u32,
            sounds_len: usize,
            answers: *mut u16,
            answers_len: usize,
            capacity: u32,
        ) -> u64;
    }
}

/// What an accepted stream returns, over both productions.
#[derive(Debug, Clone, Copy, PartialEq, Eq)]
pub struct Totals {
    /// The items still shelved: those accepted and not taken out.
    pub items: u16,
    /// The bins opened, emptied or not.
    pub opened: u16,
    /// The most looks that one search took: the largest number of all, not their
    /// sum, and 0 if no search was made.
    ///
    /// An item's bin is searched for in a tree over the whole stock, whose nodes
    /// have the largest free space of the permitted bins below them. A look is a
    /// reading of one node: of the root, and while the item fits, of the left half
    /// of each level, until one bin is left. So a search takes 1 look if no
    /// permitted bin has space, and otherwise [`most_looks`], which is the most.
    /// Each item makes one search, but for those refused with 8, 9 or 19, and no
    /// other command makes any.
    ///
    /// ```
    /// let mut stream = shelf::StreamBuilder::open(60, 4, 6);
    /// stream.shelve(20).shelve(20).shelve(30); // the second fits beside the first
    /// let (mut words, mut free) = stream.rows();
    /// let totals = shelf::shelve(stream.bytes(), &mut words, &mut free).unwrap();
    /// assert_eq!(totals.looks, 3); // the largest of 1, 3 and 1
    /// assert_eq!(totals.looks, shelf::most_looks(4));
    /// ```
    pub looks: u8,
}

/// What a row of sizes is repacked into.
#[derive(Debug, Clone, Copy, PartialEq, Eq)]
pub struct Repacked {
    /// The bins of the plan, which are numbered from 1 to this; all of them are used.
    pub count: u16,
    /// Whether these are not fewer than the old ones.
    pub saves_nothing: bool,
}

/// One entry of a plan: an item of `size` units lies in bin number `bin`.
#[derive(Debug, Clone, Copy, PartialEq, Eq)]
pub struct Entry {
    /// The item's size.
    pub size: u32,
    /// The number of its bin, from 1.
    pub bin: u32,
}

/// Shelves a whole stream.
///
/// On success word `n - 1` of each row answers command `n` after the opening:
/// in `answers` by the item's bin, the count, the production or the refusal, in
/// `free` by the units free on that bin just after the item was placed, settled or
/// taken out, and by 0 for all else ([`answers`] reads them). The words past the last
/// command are untouched. A refused stream leaves every word of both rows
/// untouched.
///
/// ```
/// use shelf::{StreamBuilder, StreamFault};
///
/// let mut stream = StreamBuilder::open(60, 4, 6);
/// stream.shelve(35).shelve(61);
/// let (mut words, mut free) = ([0; 3], [7; 3]);
/// shelf::shelve(stream.bytes(), &mut words, &mut free).expect("a well-formed stream");
/// assert_eq!((words, free), ([1, 32_768 + 9, 0], [25, 0, 7]));
///
/// // Either row may be too short.
/// let refusal = shelf::shelve(stream.bytes(), &mut words, &mut free[..1]).unwrap_err();
/// assert_eq!(refusal.fault, StreamFault::TooFewWords);
/// assert_eq!((refusal.fault.number(), refusal.offset), (7, 18));
/// ```
pub fn shelve(
    stream: &[u8],
    answers: &mut [u16],
    free: &mut [u32],
) -> Result<Totals, StreamRefusal> {
    // SAFETY: each pointer comes with the length of the slice it was taken
    // from; the rows are borrowed mutably, so they overlap nothing; the library
    // keeps neither the pointers nor any state after the call.
    let code = unsafe {
        ffi::shelf_stream(
            stream.as_ptr(),
            stream.len(),
            answers.as_mut_ptr(),
            answers.len(),
            free.as_mut_ptr(),
            free.len(),
        )
    };
    match results::of_stream(code) {
        Some(result) => result,
        None => panic!("shelf_stream returned {code:#x}, which its interface excludes"),
    }
}

/// The vault sheet of a stream: what every opened bin holds once the whole
/// stream is done, as text and as numbers. A bin that is emptied has its line
/// too. The first production's bins come first, then the second's from a new
/// page. The text does not name the production: a row has it from the answers.
///
/// ```
/// use shelf::{Production, Row, StreamBuilder};
///
/// let mut stream = StreamBuilder::open(60, 4, 6);
/// stream.shelve(35).shelve(20).shelve(61).shelve(20).withdraw(1);
///
/// let sheet = shelf::sheet(stream.bytes());
/// let lines: Vec<&str> = sheet.text().lines().collect();
/// assert_eq!(lines, [
///     "PAGE   1                                ",
///     "   1 1        0       60    0           ",
///     "   2 4       40       20    2           ",
/// ]);
/// let production = Production::First;
/// let row = Row { production, number: 2, class: 4, load: 40, free: 20, held: 2 };
/// assert_eq!(sheet.rows()[1], row);
/// ```
///
/// A refused stream has no sheet: the text is then the one line that the
/// program `shelve` prints, and there are no rows.
///
/// ```
/// let sheet = shelf::sheet(&[0x03]);
/// assert!(sheet.is_refused());
/// assert_eq!((sheet.text(), sheet.rows()), ("X 1 0\n", &[][..]));
/// ```
pub fn sheet(stream: &[u8]) -> Sheet {
    let mut bytes = Box::new([0; SHEET_BYTES]);
    let len = write_sheet(stream, &mut bytes);
    match Sheet::read(&bytes[..len], first_on_sheet(stream)) {
        Some(sheet) => sheet,
        None => panic!("shelf_sheet wrote a text that its interface excludes"),
    }
}

/// The production that has the first row of the sheet. The answers tell, and the
/// text does not where only one production has rows.
fn first_on_sheet(stream: &[u8]) -> Production {
    let (mut words, mut free) = (vec![0; MAX_COMMANDS], vec![0; MAX_COMMANDS]);
    if shelve(stream, &mut words, &mut free).is_err() {
        return Production::First;
    }
    let answered = answers(stream, &words, &free).zip(productions(stream));
    let placed = answered.filter(|((_, answer), _)| matches!(answer, Answer::Placed { .. }));
    let productions = placed.map(|(_, production)| production);
    productions.min().unwrap_or_default()
}

/// Writes the text of the vault sheet at the front of the lent bytes and
/// returns its length; the bytes behind it are untouched.
pub fn write_sheet(stream: &[u8], sheet: &mut [u8; SHEET_BYTES]) -> usize {
    // SAFETY: the stream's pointer comes with its length, and `sheet` has the
    // bytes that the library may write; it is borrowed mutably, so it overlaps
    // nothing; the library keeps neither the pointers nor any state.
    let len = unsafe { ffi::shelf_sheet(stream.as_ptr(), stream.len(), sheet.as_mut_ptr()) };
    match usize::try_from(len) {
        Ok(len) if len <= SHEET_BYTES => len,
        _ => panic!("shelf_sheet returned {len:#x}, which its interface excludes"),
    }
}

/// Checks that `plan` packs `items`, in their order, into bins numbered 1 to
/// `k` of the given capacity. A `k` larger than the bins used is permitted.
/// Sizes are taken as they are given: those of a shelf's own items must be
/// stored sizes ([`Opening::stored`]), in `plan` and in `items`. Each production
/// has a plan of its own ([`Items::plan`]).
///
/// ```
/// use shelf::{Entry, PlanFault};
///
/// let plan = [Entry { size: 30, bin: 1 }, Entry { size: 31, bin: 1 }];
/// let refusal = shelf::check_plan(&plan, &[30, 31], 60, 1).unwrap_err();
/// assert_eq!(refusal.fault, PlanFault::Overfull);
/// assert_eq!((refusal.fault.number(), refusal.place), (15, 2));
///
/// assert!(shelf::check_plan(&plan, &[30, 31], 61, 1).is_ok());
/// ```
pub fn check_plan(plan: &[Entry], items: &[u32], capacity: u32, k: u32) -> Result<(), PlanRefusal> {
    // A plan above the limit is refused for its length alone, so one entry
    // past the limit tells the library as much as all of them.
    let entries = plan.iter().take(MAX_ENTRIES + 1);
    let (sizes, bins): (Vec<u32>, Vec<u32>) = entries.map(|e| (e.size, e.bin)).unzip();
    check_plan_rows(&sizes, &bins, items, capacity, k)
}

/// The same for a plan that already lies in two rows: entry `i` is
/// `(sizes[i], bins[i])`. Places that only one of the rows has are not part of
/// the plan.
pub fn check_plan_rows(
    sizes: &[u32],
    bins: &[u32],
    items: &[u32],
    capacity: u32,
    k: u32,
) -> Result<(), PlanRefusal> {
    // SAFETY: each pointer comes with the length of the slice it was taken
    // from, and the library only reads them, during the call.
    let code = unsafe {
        ffi::shelf_check_plan(
            sizes.as_ptr(),
            sizes.len(),
            bins.as_ptr(),
            bins.len(),
            items.as_ptr(),
            items.len(),
            capacity,
            k,
        )
    };
    match results::of_plan(code) {
        Some(result) => result,
        None => panic!("shelf_check_plan returned {code:#x}, which its interface excludes"),
    }
}

/// Repacks a row of sizes into fresh bins of the given capacity by
/// First-Fit-Decreasing: the largest is placed first, equal ones in the order of the
/// row, each in the lowest-numbered bin where it still fits, and in a new one if
/// there is none. All bins are of one class.
///
/// `answers[i]` is then the bin of `sizes[i]`, from 1; words past the last answer are
/// untouched. `old` is how many bins the items lie in now: it has no limit, and only
/// tells whether the move saves nothing, which is so exactly if the new count is not
/// below it. A refused row leaves every word of `answers` untouched.
///
/// The sizes and their answers are a plan that [`check_plan`] passes, with `k` the
/// count. Twice the count is at most three times the bins of any plan of these sizes
/// that passes, with nothing added.
///
/// Sizes are taken as they are given: those of a shelf's own items must be stored
/// sizes, and each production is repacked by itself ([`Items::stored_sizes`]).
///
/// ```
/// use shelf::{Repacked, RowFault};
///
/// let mut answers = [7; 5];
/// let repacked = shelf::repack(&[20, 35, 40, 25], &mut answers, 60, 4);
/// assert_eq!(repacked, Ok(Repacked { count: 2, saves_nothing: false }));
/// assert_eq!(answers, [1, 2, 1, 2, 7]); // 40 and 20, 35 and 25
///
/// // The answers are the same, whatever the old count.
/// let repacked = shelf::repack(&[20, 35, 40, 25], &mut answers, 60, 2);
/// assert_eq!(repacked, Ok(Repacked { count: 2, saves_nothing: true }));
///
/// let refusal = shelf::repack(&[20, 61], &mut answers, 60, 2).unwrap_err();
/// assert_eq!(refusal.fault, RowFault::SizeOutsideLimits);
/// assert_eq!((refusal.fault.number(), refusal.place), (13, 2));
/// ```
pub fn repack(
    sizes: &[u32],
    answers: &mut [u16],
    capacity: u32,
    old: u32,
) -> Result<Repacked, RowRefusal> {
    // SAFETY: each pointer comes with the length of the slice it was taken
    // from; the answers are borrowed mutably, so they overlap nothing; the library
    // keeps neither the pointers nor any state after the call.
    let code = unsafe {
        ffi::shelf_repack(
            sizes.as_ptr(),
            sizes.len(),
            answers.as_mut_ptr(),
            answers.len(),
            capacity,
            old,
        )
    };
    match results::of_repack(code) {
        Some(result) => result,
        None => panic!("shelf_repack returned {code:#x}, which its interface excludes"),
    }
}

/// Pairs pictures with sounds, one of each to a bin of the given capacity, by
/// Algorithm PM: the pictures are taken from the smallest, and each gets the largest
/// sound that fits beside it among those counted smaller than the last one used. The
/// first picture for which there is none ends it. Of equal sizes the later in its row
/// is counted larger, so of equal pictures the earlier comes first, and of equal
/// sounds the later is used first.
///
/// `answers[i]` is then the place of the sound of `pictures[i]`, from 1 in the row of
/// sounds, or 0 if it has none; words past the last picture are untouched. What is
/// returned is the number of pairs, which is that of the answers above 0. Refused
/// rows leave every word of `answers` untouched.
///
/// Each pair fits the capacity, no sound is used twice, and no way of pairing the two
/// rows has more pairs, as long as each fits and no picture and no sound is in two.
///
/// Sizes are taken as they are given: where there is a trailer they must be stored
/// sizes ([`Opening::stored`]). The place of a size outside its limits counts through
/// both rows: the first sound has the place after the last picture.
///
/// ```
/// use shelf::RowFault;
///
/// let mut answers = [7; 5];
/// let pairs = shelf::pair(&[40, 20, 50, 20], &[30, 15, 40], &mut answers, 60);
/// assert_eq!(pairs, Ok(3));
/// assert_eq!(answers, [2, 3, 0, 1, 7]); // 40 and 15, 20 and 40, 20 and 30
///
/// let refusal = shelf::pair(&[40, 20], &[30, 61], &mut answers, 60).unwrap_err();
/// assert_eq!(refusal.fault, RowFault::SizeOutsideLimits);
/// assert_eq!((refusal.fault.number(), refusal.place), (13, 4)); // the second sound
/// ```
pub fn pair(
    pictures: &[u32],
    sounds: &[u32],
    answers: &mut [u16],
    capacity: u32,
) -> Result<u16, RowRefusal> {
    // SAFETY: each pointer comes with the length of the slice it was taken
    // from; the answers are borrowed mutably, so they overlap nothing; the library
    // keeps neither the pointers nor any state after the call.
    let code = unsafe {
        ffi::shelf_pair(
            pictures.as_ptr(),
            pictures.len(),
            sounds.as_ptr(),
            sounds.len(),
            answers.as_mut_ptr(),
            answers.len(),
            capacity,
        )
    };
    match results::of_pair(code) {
        Some(result) => result,
        None => panic!("shelf_pair returned {code:#x}, which its interface excludes"),
    }
}

#[cfg(test)]
mod tests {
    use super::*;

    #[test]
    fn empty_rows_are_fine() {
        let opening = StreamBuilder::open(1, 1, 6).into_bytes();
        let none = Totals {
            items: 0,
            opened: 0,
            looks: 0,
        };
        assert_eq!(shelve(&opening, &mut [], &mut []), Ok(none));
        assert_eq!(check_plan(&[], &[], 1, 0), Ok(()));
        let none = Repacked {
            count: 0,
            saves_nothing: true,
        };
        assert_eq!(repack(&[], &mut [], 1, 0), Ok(none));
        assert_eq!(pair(&[], &[], &mut [], 1), Ok(0));
        let refusal = shelve(&[], &mut [], &mut []).unwrap_err();
        assert_eq!((refusal.fault.number(), refusal.offset), (1, 0));
        let refusal = repack(&[], &mut [], 0, 0).unwrap_err();
        assert_eq!((refusal.fault.number(), refusal.place), (11, 0));
        let refusal = pair(&[], &[], &mut [], 0).unwrap_err();
        assert_eq!((refusal.fault.number(), refusal.place), (11, 0));
    }

    #[test]
    fn largest_totals_survive_packing() {
        let mut stream = StreamBuilder::open(MAX_CAPACITY, MAX_STOCK, 9);
        for _ in 0..MAX_STOCK {
            stream.shelve(MAX_CAPACITY);
        }
        let (mut words, mut free) = stream.rows();
        let totals = shelve(stream.bytes(), &mut words, &mut free).unwrap();
        assert_eq!((totals.items, totals.opened, totals.looks), (512, 512, 1));
        assert_eq!((words[511], free[511]), (512, 0));

        let mut small = StreamBuilder::open(MAX_CAPACITY, 1, 6);
        for _ in 0..MAX_COMMANDS {
            small.shelve(1);
        }
        let (mut words, mut free) = small.rows();
        let totals = shelve(small.bytes(), &mut words, &mut free).unwrap();
        assert_eq!((totals.items, totals.opened, totals.looks), (4096, 1, 1));
        assert_eq!((free[0], free[4095]), (16_777_215, 16_773_120));
    }

    #[test]
    fn a_plan_above_the_limit_is_refused_for_its_length() {
        let plan = vec![Entry { size: 1, bin: 1 }; MAX_ENTRIES + 5];
        let items = vec![1; MAX_ENTRIES];
        let refusal = check_plan(&plan, &items, MAX_CAPACITY, 1).unwrap_err();
        assert_eq!((refusal.fault.number(), refusal.place), (12, 0));
        let refusal = check_plan(&plan, &items, 0, 1).unwrap_err();
        assert_eq!((refusal.fault.number(), refusal.place), (11, 0));
        assert_eq!(
            check_plan(&plan[..MAX_ENTRIES], &items, MAX_CAPACITY, 1),
            Ok(())
        );
    }

    #[test]
    fn only_common_places_of_two_rows_are_the_plan() {
        assert_eq!(check_plan_rows(&[30, 9, 9], &[1], &[30], 60, 1), Ok(()));
        let refusal = check_plan_rows(&[30, 30], &[1], &[30, 30], 60, 1).unwrap_err();
        assert_eq!((refusal.fault.number(), refusal.place), (16, 2));
    }

    #[test]
    fn numbers_and_faults_go_both_ways() {
        for number in 0..=24 {
            let found = [
                StreamFault::from_number(number).map(StreamFault::number),
                CommandRefusal::from_number(number).map(CommandRefusal::number),
                PlanFault::from_number(number).map(PlanFault::number),
                RowFault::from_number(number).map(RowFault::number),
            ];
            let known: Vec<u32> = found.into_iter().flatten().collect();
            let times = match number {
                // Of a plan, and of a row of sizes.
                11..=13 => 2,
                1..=22 => 1,
                _ => 0,
            };
            assert_eq!(known, vec![number; times]);
        }
    }
}
