//! The specification's own cases by name, their answers written out from the
//! paper. Those it marks ● are proved elsewhere and tried here as well.

use crate::answered::{Answered, RowTrial};
use crate::checks::CHECKS;
use crate::compare::{by_library, by_paper, plan_by_library, verdict, Outcome};
use crate::families::{self, Family};
use crate::figures;
use crate::free_cases;
use crate::lists::most_trailer;
use crate::looks_cases;
use crate::pair_cases;
use crate::paper::{size_class, SizeClass, Totals};
use crate::plans::PlanTrial;
use crate::production_cases;
use crate::range_cases;
use crate::repack_cases;
use crate::rows::{self, Lent};
use crate::sheet_cases;
use crate::streams::StreamTrial;
use crate::trailer_cases;
use crate::walk::Program;
use crate::walk_cases;
use crate::wire::Command::{self, Count, Reserve, Settle, Shelve, Switch, Withdraw};
use crate::wire::{opening, refuse, refused_word as r, Opening, Refusal, Stream};
use crate::wire::{MOST_COMMANDS, PRODUCTIONS};
use crate::withdrawal_cases;
use crate::written;

/// The openings of the streams that are refused for another fault.
pub const OPENINGS: [Opening; 2] = [opening(60, 4, 6), opening(60, 4, 6).with_trailer(5)];

/// The class, the load and the items held of a bin on the sheet.
pub type BinLine = (u32, u32, u32);

/// A stream, and all that it comes to.
pub struct Case {
    pub name: &'static str,
    pub opening: Opening,
    /// Each command with its word in either row.
    pub answered: &'static [(Command, u16, u32)],
    /// The items still shelved.
    pub items: usize,
    /// The most looks of a search.
    pub looks: usize,
    /// What the sheet says of each bin; all are production 0's.
    pub bins: &'static [BinLine],
}

impl Case {
    pub fn commands(&self) -> Vec<Command> {
        self.answered.iter().map(|&(sent, ..)| sent).collect()
    }

    pub fn stream(&self) -> Vec<u8> {
        sent(self.opening, &self.commands())
    }

    /// The words of both rows.
    pub fn words(&self) -> (Vec<u16>, Vec<u32>) {
        let words = self.answered.iter().map(|&(_, word, free)| (word, free));
        words.unzip()
    }
}

/// Collects what went wrong, by the name of the case.
#[derive(Default)]
pub struct Cases {
    pub tried: usize,
    pub failed: Vec<String>,
    /// Walks that were compared with the program's.
    pub walks: usize,
}

impl Cases {
    pub fn check(&mut self, name: &str, good: bool, seen: impl FnOnce() -> String) {
        self.tried += 1;
        if !good {
            self.failed.push(format!("{name}: {}", seen()));
        }
    }

    /// What a stream comes to on one side, to the last word of each row and
    /// around it, and to the last byte of the sheet.
    fn outcome(&mut self, name: &str, side: &str, outcome: &Outcome, expected: &Outcome) {
        self.check(name, outcome == expected, || {
            let rows = rows::difference(&expected.rows, &outcome.rows);
            let sheet = written::difference(&expected.sheet, &outcome.sheet);
            format!("{side}: {outcome}; expected against this: {rows}; sheet: {sheet}")
        });
    }

    /// What a stream comes to by the library, whose answers are held against
    /// themselves besides.
    pub fn library(&mut self, name: &str, trial: &StreamTrial, expected: &Outcome) {
        let library = by_library(trial);
        self.outcome(name, "library", &library, expected);
        for check in CHECKS {
            let fault = check(trial, &library);
            self.check(name, fault.is_none(), || {
                format!("library: {}", fault.unwrap_or_default())
            });
        }
    }

    pub fn both(&mut self, name: &str, trial: &StreamTrial, expected: &Outcome) {
        self.outcome(name, "paper", &by_paper(trial), expected);
        self.library(name, trial, expected);
    }

    /// What both sides make of rows of sizes, to the last word and around it.
    fn rows<T: RowTrial>(&mut self, name: &str, trial: &T, expected: &Answered<T::Returned>) {
        for (side, answered) in [("paper", trial.by_paper()), ("library", trial.by_library())] {
            self.check(name, answered == *expected, || {
                let difference = expected.difference(&answered);
                format!("{side}: {answered}; expected {expected}; {difference}")
            });
            let fault = trial.fault(&answered);
            self.check(name, fault.is_none(), || {
                format!("{side}: {}", fault.unwrap_or_default())
            });
        }
    }

    /// Rows of sizes that are accepted with these answers.
    pub fn accepted_rows<T: RowTrial>(
        &mut self,
        name: &str,
        trial: &T,
        answers: &[u16],
        returned: T::Returned,
    ) {
        let expected = Answered::accepted(trial, answers, returned);
        self.rows(name, trial, &expected);
    }

    /// Rows of sizes that are refused.
    pub fn refused_rows<T: RowTrial>(&mut self, name: &str, trial: &T, number: u32, at: usize) {
        let expected = Answered::refused(trial, Refusal { number, at });
        self.rows(name, trial, &expected);
    }

    /// A stream that is accepted with these words in the rows and these totals,
    /// each row just long enough or longer.
    pub fn answered(
        &mut self,
        name: &str,
        stream: &[u8],
        (words, free): (&[u16], &[u32]),
        totals: Totals,
    ) {
        for (more, more_free) in [(0, 0), (3, 0), (0, 3), (2, 5)] {
            let lent = Lent {
                answers: words.len() + more,
                free: free.len() + more_free,
            };
            let trial = case(stream.to_vec(), lent);
            let expected = Outcome::accepted(&trial, totals, words, free);
            self.both(name, &trial, &expected);
        }
    }

    /// This case's stream, or another that comes to the same.
    pub fn shelved(&mut self, case: &Case, stream: &[u8]) {
        let (words, free) = case.words();
        self.shelved_by_both(case, stream, (&words, &free), [case.bins, &[]]);
    }

    /// A stream of this case's name, opening, items still shelved and looks, with
    /// these words, and these bins of either production on its sheet.
    pub fn shelved_by_both(
        &mut self,
        case: &Case,
        stream: &[u8],
        words: (&[u16], &[u32]),
        bins: [&[BinLine]; PRODUCTIONS],
    ) {
        let opened = bins.iter().map(|bins| bins.len()).sum();
        let totals = totals(case.items, opened, case.looks);
        self.answered(case.name, stream, words, totals);
        let sheet = sheet_cases::sheets(case.opening.capacity, bins);
        self.sheet(case.name, stream.to_vec(), &sheet);
    }

    /// The same by the answer words: the free units follow by subtraction.
    fn accepted(&mut self, name: &str, stream: &[u8], words: &[u16], totals: Totals) {
        let read = Stream::read(stream).expect("a stream without a fault");
        let free = figures::by_subtraction(&read, words).expect("no bin is overfull");
        self.answered(name, stream, (words, &free), totals);
    }

    /// A list that is shelved without a refusal.
    fn placed(&mut self, name: &str, capacity: u32, sizes: &[u32], bins: &[u16]) {
        let stream = Stream::of_sizes(opening(capacity, 512, 6), sizes);
        let opened = bins.iter().max().copied().unwrap_or(0);
        let totals = all_placed(sizes.len(), opened.into());
        self.accepted(name, &stream.bytes(), bins, totals);
    }

    /// A stream that is refused as a whole, at the end of `before`, with so many
    /// words lent in either row or in both; the rows are untouched.
    pub fn refused(&mut self, name: &str, number: u32, before: &[u8], fault: &[u8], lent: usize) {
        let at = before.len();
        for (answers, free) in [(lent, lent), (lent, MOST_COMMANDS), (MOST_COMMANDS, lent)] {
            let trial = case([before, fault].concat(), Lent { answers, free });
            let expected = Outcome::refused(&trial, Refusal { number, at });
            self.both(name, &trial, &expected);
        }
    }

    fn plan(&mut self, name: &str, trial: &PlanTrial, expected: Result<(), Refusal>) {
        let paper = trial.by_paper();
        self.check(name, paper == expected, || {
            format!("paper: {}", verdict(paper))
        });
        let library = plan_by_library(trial);
        self.check(name, library == Some(expected), || match library {
            Some(library) => format!("library: {}", verdict(library)),
            None => "library: outside the interface".to_string(),
        });
    }
}

/// What a stream returns: the items still shelved, the bins opened, and the most
/// looks of a search.
pub const fn totals(items: usize, opened: usize, looks: usize) -> Totals {
    Totals {
        items,
        opened,
        looks,
    }
}

/// What a list over a stock of 512 returns of which every item is placed: where
/// they are more than the bins, one of them fits on a bin opened before.
pub fn all_placed(items: usize, opened: usize) -> Totals {
    let looks = if items > opened { 10 } else { items.min(1) };
    totals(items, opened, looks)
}

pub fn case(stream: Vec<u8>, lent: Lent) -> StreamTrial {
    StreamTrial {
        kind: "case",
        stream,
        lent,
        fill: 1,
    }
}

pub fn sent(opening: Opening, commands: &[Command]) -> Vec<u8> {
    let commands = commands.to_vec();
    Stream { opening, commands }.bytes()
}

/// The sample of `shelve`.
pub fn sample() -> Vec<u8> {
    let mut commands = vec![Shelve(35)];
    commands.extend([Shelve(22); 6]);
    commands.extend([Shelve(20), Count, Shelve(22)]);
    sent(opening(60, 4, 6), &commands)
}

fn plan(entries: &[(u32, u32)], items: &[u32], capacity: u32, k: u32) -> PlanTrial {
    let (sizes, bins) = entries.iter().copied().unzip();
    PlanTrial {
        kind: "case",
        sizes,
        bins,
        items: items.to_vec(),
        capacity,
        k,
    }
}

/// A plan of just these items.
fn own_plan(entries: &[(u32, u32)], capacity: u32, k: u32) -> PlanTrial {
    let items: Vec<u32> = entries.iter().map(|&(size, _)| size).collect();
    plan(entries, &items, capacity, k)
}

/// All of them. The error is that of the program that walks, if one is given
/// and cannot be run.
pub fn run(program: Option<&Program>) -> Result<Cases, String> {
    let mut cases = Cases::default();
    size_classes(&mut cases);
    worked_shelves(&mut cases);
    theorem_1(&mut cases);
    misleading_readings(&mut cases);
    for opening in OPENINGS {
        faulty_commands(&mut cases, opening);
        numbers_of_commands(&mut cases, opening);
    }
    for trailer in [None, Some(0), Some(60), Some(u16::MAX)] {
        openings(&mut cases, trailer);
    }
    item_refusals(&mut cases);
    plan_limits(&mut cases);
    plan_entries(&mut cases);
    worst_lists(&mut cases);
    free_cases::run(&mut cases);
    sheet_cases::run(&mut cases);
    walk_cases::run(&mut cases, program)?;
    withdrawal_cases::run(&mut cases);
    trailer_cases::run(&mut cases);
    production_cases::run(&mut cases);
    looks_cases::run(&mut cases);
    range_cases::run(&mut cases);
    repack_cases::run(&mut cases);
    pair_cases::run(&mut cases);
    Ok(cases)
}

fn size_classes(cases: &mut Cases) {
    use SizeClass::{A, B1, B2, X};
    let classes = [
        (20, 60, X),
        (21, 60, B2),
        (24, 60, B2),
        (25, 60, B1),
        (30, 60, B1),
        (31, 60, A),
        (2, 7, X),
        (3, 7, B1),
        (1, 1, A),
    ];
    for (size, capacity, class) in classes {
        let good = size_class(size, capacity) == class;
        cases.check("size classes ●", good, || {
            format!("paper: {size} of {capacity}")
        });
    }
    let no_b2 = (1..=7).all(|size| size_class(size, 7) != B2);
    cases.check("capacity 7 has no B2 ●", no_b2, || "paper".to_string());

    // The classes as the answers show them: a size in a wrong class would join
    // another bin or open one.
    let name = "size classes of capacity 60 ●";
    cases.placed(name, 60, &[20, 21, 24, 31, 25, 30], &[1, 2, 2, 3, 4, 4]);
    let name = "size classes of capacity 7 ●";
    cases.placed(name, 7, &[2, 3, 4, 3, 2, 2, 1], &[1, 2, 3, 2, 1, 1, 1]);
    cases.placed("size 1 of capacity 1 ●", 1, &[1, 1], &[1, 2]);
}

fn worked_shelves(cases: &mut Cases) {
    for (last, bin) in [(38, 4), (39, 5)] {
        cases.placed(
            &format!("six of 22, then {last} ●"),
            60,
            &[22, 22, 22, 22, 22, 22, last],
            &[1, 1, 2, 2, 3, 4, bin],
        );
    }

    let fits = own_plan(&[(30, 1), (30, 1)], 60, 1);
    cases.plan("30 and 30 in one cartridge ●", &fits, Ok(()));
    let overfull = own_plan(&[(30, 1), (31, 1)], 60, 1);
    cases.plan("30 and 31 in one cartridge ●", &overfull, refuse(15, 2));
    cases.plan("no masters, k 0 ●", &own_plan(&[], 60, 0), Ok(()));

    cases.answered(
        "the sample of `shelve`",
        &sample(),
        (
            &[1, 2, 2, 3, 3, 4, 1, r(10), 4, 4],
            &[25, 38, 16, 38, 16, 38, 3, 0, 0, 16],
        ),
        totals(8, 4, 3),
    );
}

fn theorem_1(cases: &mut Cases) {
    let sizes = [
        69632, 63488, 65024, 65792, 65408, 65504, 65552, 65528, 65534, 66560, 65600, 65540, 135168,
        132096, 131328, 131136, 131088, 131076, 131073, 57344, 65537,
    ];
    let bins = [
        1, 1, 1, 2, 2, 2, 3, 3, 3, 4, 4, 4, 5, 6, 7, 8, 9, 10, 11, 1, 12,
    ];
    cases.placed("Theorem 1, n = 7 ●", 262_144, &sizes, &bins);

    let sevens = [
        1, 2, 3, 3, 4, 5, 5, 6, 7, 2, 4, 6, 1, 2, 3, 4, 5, 6, 7, 1, 7,
    ];
    let entries: Vec<(u32, u32)> = sizes.into_iter().zip(sevens).collect();
    let trial = own_plan(&entries, 262_144, 7);
    cases.plan("Theorem 1, n = 7: the plan with k 7 ●", &trial, Ok(()));

    let family = families::theorem_1_by_quarters(7);
    let same = family.capacity == 262_144 && family.sizes == sizes && family.bins == sevens;
    cases.check("Theorem 1, n = 7, as generated", same, || {
        format!("{:?}", family.sizes)
    });
}

fn misleading_readings(cases: &mut Cases) {
    let name = "misreading: exactly a third among the B2";
    cases.placed(name, 60, &[20, 21, 20, 20], &[1, 2, 1, 1]);
    // Twelve B2: the 6th and the 12th are in class 1, neither beside the other.
    let twelve = [1, 1, 2, 2, 3, 4, 3, 5, 5, 6, 6, 7];
    let name = "misreading: only the B2 in class 3 count towards m";
    cases.placed(name, 60, &[22; 7], &twelve[..7]);
    let name = "misreading: an m-th B2 joins a class-1 cartridge without an A";
    cases.placed(name, 60, &[22; 12], &twelve);
    cases.placed(
        "misreading: an A opens a cartridge though a lone B2 has space",
        60,
        &[22, 22, 22, 22, 22, 22, 31, 38, 31],
        &[1, 1, 2, 2, 3, 4, 4, 5, 6],
    );
    // The 6th B2 finds the stock spent. Not counted, it is the 6th again when
    // it comes again, though cartridge 3 has space for any but a 6th.
    let mut refused_b2 = vec![Shelve(22); 7];
    refused_b2.push(Count);
    cases.accepted(
        "misreading: a refused B2 is counted",
        &sent(opening(60, 3, 6), &refused_b2),
        &[1, 1, 2, 2, 3, r(10), r(10), 3],
        totals(5, 3, 3),
    );
    // The same with m 9, whose 9th is refused twice; the 10th never comes.
    let mut refused_ninth = vec![Shelve(40)];
    refused_ninth.extend([Shelve(21); 10]);
    refused_ninth.extend([Shelve(20), Count]);
    cases.accepted(
        "a refused 9th B2 with m 9",
        &sent(opening(60, 5, 9), &refused_ninth),
        &[1, 2, 2, 3, 3, 4, 4, 5, 5, r(10), r(10), r(10), 5],
        totals(9, 5, 4),
    );
}

/// Refusals 1 to 4.
fn faulty_commands(cases: &mut Cases, opening: Opening) {
    let outside = Opening {
        capacity: 0,
        stock: 0,
        m: 0,
        ..opening
    };
    let (size, out) = (Shelve(22).bytes(), Withdraw(1).bytes());
    let counted = sent(opening, &[Count]);
    let shelved = sent(opening, &[Shelve(22)]);

    cases.refused("refusal 1: empty", 1, &[], &[], 4);
    cases.refused("refusal 1: starts with 02", 1, &[], &size, 4);
    let name = "refusal 1: starts with an unknown byte";
    cases.refused(name, 1, &[], &[0xFF], 0);
    let mut other = opening.bytes();
    for first in [
        0x00, 0x02, 0x03, 0x04, 0x05, 0x06, 0x07, 0x0B, 0x10, 0x12, 0x91, 0xFF,
    ] {
        other[0] = first;
        let name = "refusal 1: another byte before the operands of an opening";
        cases.refused(name, 1, &[], &other, 4);
    }
    for byte in [
        0x00, 0x08, 0x0B, 0x10, 0x12, 0x81, 0x85, 0x86, 0x87, 0x91, 0xFF,
    ] {
        let name = format!("refusal 2: {byte:02X}");
        cases.refused(&name, 2, &opening.bytes(), &[byte], 4);
        cases.refused(&name, 2, &shelved, &[byte, 0x03], 4);
        cases.refused(&name, 2, &counted, &[byte], 4);
    }
    for cut in 1..size.len() {
        let name = "refusal 3: a size cut short";
        cases.refused(name, 3, &counted, &size[..cut], 4);
    }
    for cut in 1..out.len() {
        let name = "refusal 3: a withdrawal cut short";
        cases.refused(name, 3, &shelved, &out[..cut], 4);
    }
    for command in [Reserve(22, 23), Settle(1, 22)].map(|command| command.bytes()) {
        for cut in 1..command.len() {
            let name = "refusal 3: a range or a settling cut short";
            cases.refused(name, 3, &shelved, &command[..cut], 4);
        }
    }
    let name = "refusal 3: a switch cut short";
    cases.refused(name, 3, &shelved, &Switch(1).bytes()[..1], 4);
    for cut in 1..opening.bytes().len() {
        let name = "refusal 3: an opening cut short";
        cases.refused(name, 3, &[], &opening.bytes()[..cut], 4);
        let name = "refusal 3 before 5: an opening cut short";
        cases.refused(name, 3, &[], &outside.bytes()[..cut], 4);
    }
    for second in OPENINGS.map(|opening| opening.bytes()) {
        cases.refused("refusal 4", 4, &counted, &second, 4);
        cases.refused("refusal 4 at once", 4, &opening.bytes(), &second, 4);
        for cut in 1..second.len() {
            let name = "refusal 4 before 3: a second opening cut short";
            cases.refused(name, 4, &shelved, &second[..cut], 4);
        }
        let faults = [&second[..], &[0x08]].concat();
        cases.refused("the first faulty command decides", 4, &counted, &faults, 4);
    }
    let name = "refusal 4 before 5: a second opening outside its limits";
    cases.refused(name, 4, &opening.bytes(), &outside.bytes(), 4);
}

/// Refusal 5, which is not for a trailer.
fn openings(cases: &mut Cases, trailer: Option<u16>) {
    let outside = [
        (0, 4, 6),
        (16_777_217, 4, 6),
        (u32::MAX, 4, 6),
        (60, 0, 6),
        (60, 513, 6),
        (60, u16::MAX, 6),
        (60, 4, 5),
        (60, 4, 10),
        (60, 4, 0),
        (60, 4, 255),
    ];
    let bytes = |(capacity, stock, m)| {
        let opening = opening(capacity, stock, m);
        Opening { trailer, ..opening }.bytes()
    };
    for outside in outside {
        let mut faults = bytes(outside);
        faults.push(0xFF);
        cases.refused("refusal 5, before a later fault", 5, &[], &faults, 0);
    }
    for good in [(1, 1, 6), (16_777_216, 512, 9)] {
        let name = "an opening at its limits";
        cases.accepted(name, &bytes(good), &[], totals(0, 0, 0));
    }
}

/// Refusals 6 and 7.
fn numbers_of_commands(cases: &mut Cases, opening: Opening) {
    let full = sent(opening, &[Count; 4096]);
    cases.accepted("4,096 commands", &full, &[0; 4096], totals(0, 0, 0));

    let (size, count, out) = (Shelve(22).bytes(), Count.bytes(), Withdraw(1).bytes());
    let [by_01, by_11] = OPENINGS.map(|opening| opening.bytes());
    let whole = [&count, &size, &out, &by_01, &by_11].map(|bytes| &bytes[..]);
    let switches = [&[5][..], &[5, 0], &[5, 1], &[5, 2], &[5, 255], &[6], &[7]];
    let cut = [
        &[0xFF],
        &by_01[..1],
        &by_11[..1],
        &by_11[..8],
        &size[..1],
        &out[..1],
        &out[..2],
    ];
    for last in whole.into_iter().chain(cut).chain(switches) {
        let name = "refusal 6 whatever the 4,097th command";
        cases.refused(name, 6, &full, last, 4096);
    }
    let faults = [&[0x09], &count[..]].concat();
    let name = "an earlier fault before 6";
    cases.refused(name, 2, &sent(opening, &[Count; 4095]), &faults, 4096);
    cases.refused("refusal 6 before 7", 6, &full, &count, 0);

    cases.refused("refusal 7: no word", 7, &sent(opening, &[Count]), &[], 0);
    let two = sent(opening, &[Shelve(22); 2]);
    cases.refused("refusal 7: one word short", 7, &two, &[], 1);
    cases.refused("refusal 7: one of 4,096 short", 7, &full, &[], 4095);
    let name = "another fault before 7";
    cases.refused(name, 3, &sent(opening, &[Shelve(22)]), &size[..2], 0);
}

fn item_refusals(cases: &mut Cases) {
    let commands = [
        Shelve(0),
        Shelve(61),
        Shelve(u32::MAX),
        Count,
        Shelve(60),
        Shelve(0),
        Shelve(61),
        Shelve(60),
        Shelve(1),
        Count,
    ];
    cases.accepted(
        "refusals 8, 9 and 10 and their order",
        &sent(opening(60, 1, 6), &commands),
        &[r(8), r(9), r(9), 0, 1, r(8), r(9), r(10), r(10), 1],
        totals(1, 1, 1),
    );
    let spent = sent(opening(10, 512, 7), &[Shelve(10); 513]);
    let words: Vec<u16> = (1..=512).chain([r(10)]).collect();
    let name = "513 masters over a stock of 512";
    cases.accepted(name, &spent, &words, totals(512, 512, 1));

    let ones = sent(opening(16_777_216, 1, 6), &[Shelve(1); 4096]);
    let name = "4,096 masters in one cartridge";
    cases.accepted(name, &ones, &[1; 4096], totals(4096, 1, 1));
}

/// Refusals 11 and 12.
fn plan_limits(cases: &mut Cases) {
    let with = |k: u32, capacity: u32| own_plan(&[(30, 1), (30, 1), (20, 2)], capacity, k);
    let name = "a plan with k larger than its use";
    cases.plan(name, &with(9, 60), Ok(()));
    for capacity in [0, 16_777_217, u32::MAX] {
        let trial = with(4097, capacity);
        cases.plan("refusal 11 before 12", &trial, refuse(11, 0));
    }
    for k in [4097, u32::MAX] {
        let items = vec![30];
        let trial = PlanTrial {
            items,
            ..with(k, 60)
        };
        cases.plan("refusal 12 for k, before 16", &trial, refuse(12, 0));
    }
    let ones =
        |entries: usize, items: usize| plan(&vec![(1, 1); entries], &vec![1; items], 5000, 4096);
    cases.plan("4,096 entries", &ones(4096, 4096), Ok(()));
    for (name, trial) in [
        ("refusal 12 for the plan", ones(4097, 4096)),
        ("refusal 12 for the masters", ones(4096, 4097)),
        ("refusal 12 for both", ones(4097, 4097)),
    ] {
        cases.plan(name, &trial, refuse(12, 0));
    }
}

/// Refusals 13 to 16.
fn plan_entries(cases: &mut Cases) {
    let bins = vec![1, 1, 2, 0];
    let longer_row = PlanTrial {
        bins,
        ..own_plan(&[(30, 1), (30, 1), (20, 2)], 60, 2)
    };
    let name = "a place that only one row has is not in the plan";
    cases.plan(name, &longer_row, Ok(()));
    let name = "refusal 16: no entry";
    cases.plan(name, &plan(&[], &[30], 60, 1), refuse(16, 1));
    cases.plan(
        "refusal 16 for the lengths, before any entry",
        &plan(&[(0, 0), (0, 0)], &[30], 60, 1),
        refuse(16, 2),
    );
    cases.plan(
        "refusal 16 for a size, before 13, 14, 15",
        &plan(&[(30, 1), (0, 0)], &[30, 61], 60, 1),
        refuse(16, 2),
    );
    for size in [0, 61, u32::MAX] {
        let trial = own_plan(&[(30, 1), (size, 0)], 60, 1);
        cases.plan("refusal 13 before 14 and 15", &trial, refuse(13, 2));
    }
    for bin in [0, 3, u32::MAX] {
        let trial = own_plan(&[(60, 1), (60, bin)], 60, 2);
        cases.plan("refusal 14", &trial, refuse(14, 2));
    }
    let name = "refusal 14: k is 0";
    cases.plan(name, &own_plan(&[(1, 1)], 1, 0), refuse(14, 1));
    let overfull = own_plan(&[(30, 2), (30, 1), (31, 2), (31, 1)], 60, 2);
    let name = "refusal 15 at the first entry too many";
    cases.plan(name, &overfull, refuse(15, 3));
    cases.plan(
        "the first faulty entry decides",
        &plan(&[(31, 1), (30, 1), (5, 1)], &[31, 30, 6], 60, 1),
        refuse(15, 2),
    );
}

/// Lists that do badly, with the plans that do well: Theorem 1 further on, and
/// for every k and m one that does as badly as any.
fn worst_lists(cases: &mut Cases) {
    let name = "five for two, capacity 11";
    cases.placed(name, 11, &[6, 5, 6, 4, 1], &[1, 2, 3, 4, 5]);
    let two = own_plan(&[(6, 1), (5, 1), (6, 2), (4, 2), (1, 2)], 11, 2);
    cases.plan("five for two: the plan", &two, Ok(()));
    let mut ten = vec![598, 998, 1460, 1460, 1539, 1539, 1500, 1499, 2401, 2001];
    ten.extend([3001; 5]);
    let bins = [1, 1, 1, 1, 2, 2, 2, 3, 4, 5, 6, 7, 8, 9, 10];
    cases.placed("ten for five, capacity 6000", 6000, &ten, &bins);

    for n in [7, 13, 19, 25] {
        let name = format!("Theorem 1, n = {n}");
        family(cases, &name, 6, families::theorem_1_slowly(n));
    }
    let quarters = families::theorem_1_by_quarters(7);
    family(cases, "Theorem 1 by quarters", 6, quarters);
    for k in 1..=families::TIGHT_MOST {
        for m in 6..=9 {
            let name = format!("tight, k = {k}, m = {m}");
            family(cases, &name, m, families::tight(k));
        }
    }
}

/// By 11, each size less a trailer. That the list as it is comes to the same by
/// 01, the library's checks see to.
fn family(cases: &mut Cases, name: &str, m: u8, family: Family) {
    let Family {
        capacity,
        sizes,
        bins,
        k,
        opened,
    } = family;
    let totals = all_placed(sizes.len(), opened as usize);
    let opening = opening(capacity, 512, m).with_trailer(most_trailer(&sizes));
    let stream = Stream::of_stored(opening, &sizes);
    let trial = case(stream.bytes(), Lent::both(sizes.len()));
    let paper = by_paper(&trial);
    cases.check(name, paper.totals() == Some(totals), || {
        format!("paper: {paper}")
    });
    cases.library(name, &trial, &paper);
    let entries: Vec<(u32, u32)> = sizes.into_iter().zip(bins).collect();
    cases.plan(name, &own_plan(&entries, capacity, k), Ok(()));
    cases.check(name, 3 * opened <= 5 * k + 5, || {
        format!("{opened} for {k}")
    });
}
