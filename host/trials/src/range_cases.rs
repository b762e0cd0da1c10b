//! The cases of sizes known within a range by name, their words and sheets written
//! out from the request. Most tell a wrong reading of it from the right one.

use crate::cases::{sent, totals, BinLine, Case, Cases};
use crate::sheet_cases::sheet;
use crate::wire::Command::{self, Count, Reserve, Settle, Shelve, Switch, Withdraw};
use crate::wire::{opening, refused_word as r, Opening, MOST_CAPACITY, MOST_COMMANDS};

const OPEN: Opening = opening(60, 512, 6);

pub const CASES: [Case; 13] = [
    Case {
        name: "a master of a range is shelved by its greatest size",
        opening: OPEN,
        answered: &[
            (Reserve(2, 35), 1, 25),
            (Reserve(2, 30), 2, 30),
            (Reserve(2, 24), 3, 36),
            (Reserve(2, 20), 4, 40),
            (Reserve(30, 30), 2, 0),
            (Shelve(24), 3, 12),
            (Reserve(20, 20), 4, 20),
            (Reserve(2, 21), 5, 39),
            (Reserve(2, 36), 6, 24),
        ],
        items: 9,
        looks: 10,
        bins: &[
            (1, 35, 1),
            (2, 60, 2),
            (3, 48, 2),
            (4, 40, 2),
            (3, 21, 1),
            (1, 36, 1),
        ],
    },
    Case {
        name: "a master that is settled leaves the rest of its greatest size free",
        opening: OPEN,
        answered: &[
            (Reserve(10, 40), 1, 20),
            (Settle(1, 30), 1, 30),
            (Shelve(31), 2, 29),
            (Reserve(5, 30), 3, 30),
            (Settle(4, 5), 3, 55),
            (Shelve(30), 3, 25),
            (Shelve(25), 3, 0),
            (Reserve(5, 30), 4, 30),
        ],
        items: 6,
        looks: 10,
        bins: &[(1, 30, 1), (1, 31, 1), (2, 60, 3), (2, 30, 1)],
    },
    Case {
        name: "the order 19, 9, 10",
        opening: opening(60, 1, 6),
        answered: &[
            (Reserve(0, 61), r(19), 0),
            (Reserve(62, 61), r(19), 0),
            (Reserve(10, 61), r(9), 0),
            (Reserve(10, 60), 1, 0),
            (Reserve(0, 20), r(19), 0),
            (Reserve(21, 20), r(19), 0),
            (Reserve(0, 61), r(19), 0),
            (Reserve(20, 61), r(9), 0),
            (Reserve(61, 61), r(9), 0),
            (Reserve(10, 20), r(10), 0),
            (Reserve(10, 60), r(10), 0),
            (Count, 1, 0),
        ],
        items: 1,
        looks: 1,
        bins: &[(1, 60, 1)],
    },
    Case {
        name: "refusal 19 for a least of 0 and for one above the greatest",
        opening: OPEN,
        answered: &[
            (Reserve(0, 5), r(19), 0),
            (Reserve(6, 5), r(19), 0),
            (Reserve(5, 5), 1, 55),
            (Reserve(0, 0), r(19), 0),
            (Reserve(1, 0), r(19), 0),
            (Reserve(1, 1), 1, 54),
            (Reserve(u32::MAX, u32::MAX - 1), r(19), 0),
            (Reserve(u32::MAX, 1), r(19), 0),
            (Reserve(u32::MAX, u32::MAX), r(9), 0),
            (Reserve(1, u32::MAX), r(9), 0),
            (Withdraw(1), r(17), 0),
            (Settle(2, 5), r(20), 0),
            (Settle(9, 1), r(20), 0),
            (Count, 1, 0),
        ],
        items: 2,
        looks: 10,
        bins: &[(4, 6, 2)],
    },
    Case {
        name: "refusal 20 for all that does not wait to be settled",
        opening: OPEN,
        answered: &[
            (Settle(0, 5), r(20), 0),
            (Settle(2, 5), r(20), 0),
            (Settle(6, 5), r(20), 0),
            (Shelve(20), 1, 40),
            (Settle(4, 20), r(20), 0),
            (Reserve(5, 20), 1, 20),
            (Count, 1, 0),
            (Settle(7, 5), r(20), 0),
            (Withdraw(4), 1, 40),
            (Settle(9, 5), r(20), 0),
            (Settle(10, 5), r(20), 0),
            (Reserve(6, 5), r(19), 0),
            (Settle(12, 5), r(20), 0),
            (Settle(4, 20), r(20), 0),
            (Settle(4096, 5), r(20), 0),
            (Settle(4097, 5), r(20), 0),
            (Settle(u16::MAX, 5), r(20), 0),
            (Settle(6, 5), 1, 55),
            // Twice, and taken out and then settled.
            (Settle(6, 5), r(20), 0),
            (Settle(6, 20), r(20), 0),
            (Reserve(5, 20), 1, 35),
            (Withdraw(21), 1, 55),
            (Settle(21, 5), r(20), 0),
            (Withdraw(6), 1, 60),
            (Settle(6, 5), r(20), 0),
        ],
        items: 0,
        looks: 10,
        bins: &[(4, 0, 0)],
    },
    Case {
        name: "refusal 21 beside the range, and none at its ends",
        opening: OPEN,
        answered: &[
            (Reserve(10, 40), 1, 20),
            (Settle(1, 9), r(21), 0),
            (Settle(1, 41), r(21), 0),
            (Settle(1, 0), r(21), 0),
            (Settle(1, u32::MAX), r(21), 0),
            (Settle(1, 10), 1, 50),
            // It comes after 20.
            (Settle(1, 9), r(20), 0),
            (Settle(99, 0), r(20), 0),
            (Reserve(10, 40), 1, 10),
            (Settle(9, 40), 1, 10),
            (Reserve(7, 7), 2, 53),
            (Settle(11, 6), r(21), 0),
            (Settle(11, 8), r(21), 0),
            (Settle(11, 7), 2, 53),
        ],
        items: 3,
        looks: 10,
        bins: &[(1, 50, 2), (4, 7, 1)],
    },
    Case {
        name: "several A on a cartridge",
        opening: OPEN,
        answered: &[
            (Reserve(2, 60), 1, 0),
            (Settle(1, 10), 1, 50),
            (Shelve(31), 1, 19),
            (Shelve(31), 2, 29),
            (Reserve(5, 50), 3, 10),
            (Settle(5, 5), 3, 55),
            (Reserve(2, 55), 3, 0),
            (Settle(7, 2), 3, 53),
            (Shelve(53), 3, 0),
            (Count, 3, 0),
        ],
        items: 6,
        looks: 10,
        bins: &[(1, 41, 2), (1, 31, 1), (1, 60, 3)],
    },
    Case {
        name: "one of two A out leaves the cartridge to an m-th B2, the last one out hides it",
        opening: OPEN,
        answered: &[
            (Reserve(2, 40), 1, 20),
            (Settle(1, 5), 1, 55),
            (Shelve(31), 1, 24),
            (Shelve(22), 2, 38),
            (Shelve(22), 2, 16),
            (Shelve(22), 3, 38),
            (Shelve(22), 3, 16),
            (Shelve(22), 4, 38),
            (Withdraw(3), 1, 55),
            // The sixth, beside the A that is settled.
            (Shelve(22), 1, 33),
            (Shelve(22), 4, 16),
            (Shelve(22), 5, 38),
            (Shelve(22), 5, 16),
            (Shelve(22), 6, 38),
            (Shelve(22), 6, 16),
            (Withdraw(1), 1, 38),
            // The twelfth, with no A anywhere.
            (Shelve(22), 7, 38),
            (Shelve(38), 1, 0),
        ],
        items: 13,
        looks: 10,
        bins: &[
            (1, 60, 2),
            (3, 44, 2),
            (3, 44, 2),
            (3, 44, 2),
            (3, 44, 2),
            (3, 44, 2),
            (1, 22, 1),
        ],
    },
    Case {
        name: "the settled one of two A out leaves the cartridge to an m-th B2",
        opening: OPEN,
        answered: &[
            (Reserve(2, 40), 1, 20),
            (Settle(1, 5), 1, 55),
            (Reserve(2, 31), 1, 24),
            (Shelve(22), 2, 38),
            (Shelve(22), 2, 16),
            (Shelve(22), 3, 38),
            (Shelve(22), 3, 16),
            (Shelve(22), 4, 38),
            (Withdraw(1), 1, 29),
            (Shelve(22), 1, 7),
        ],
        items: 7,
        looks: 10,
        bins: &[(1, 53, 2), (3, 44, 2), (3, 44, 2), (3, 22, 1)],
    },
    Case {
        name: "the class of a master and of its cartridge stays when it is settled",
        opening: OPEN,
        answered: &[
            (Reserve(2, 31), 1, 29),
            (Settle(1, 2), 1, 58),
            // Only an A joins it.
            (Shelve(20), 2, 40),
            (Shelve(30), 3, 30),
            (Shelve(22), 4, 38),
            (Shelve(58), 1, 0),
            (Reserve(2, 30), 3, 0),
            (Settle(7, 2), 3, 28),
            (Shelve(28), 3, 0),
            (Reserve(2, 21), 4, 17),
            (Settle(10, 2), 4, 36),
            (Shelve(24), 4, 12),
            (Shelve(13), 2, 27),
        ],
        items: 10,
        looks: 10,
        bins: &[(1, 60, 2), (4, 33, 2), (2, 60, 3), (3, 48, 3)],
    },
    Case {
        name: "the count of B2 masters goes by greatest sizes",
        opening: OPEN,
        answered: &[
            (Reserve(2, 22), 1, 38),
            (Settle(1, 2), 1, 58),
            // A B1, at whatever it is settled.
            (Reserve(22, 25), 2, 35),
            (Settle(3, 22), 2, 38),
            (Shelve(22), 1, 36),
            (Shelve(22), 1, 14),
            (Reserve(21, 24), 3, 36),
            (Shelve(22), 3, 14),
            // The sixth opens a cartridge, to which an A then comes.
            (Reserve(10, 22), 4, 38),
            (Settle(9, 10), 4, 50),
            (Shelve(50), 4, 0),
            (Shelve(22), 5, 38),
        ],
        items: 9,
        looks: 10,
        bins: &[(3, 46, 3), (2, 22, 1), (3, 46, 2), (1, 60, 2), (3, 22, 1)],
    },
    Case {
        name: "a withdrawal frees what counts then",
        opening: OPEN,
        answered: &[
            (Reserve(5, 40), 1, 20),
            (Withdraw(1), 1, 60),
            (Reserve(5, 40), 1, 20),
            (Shelve(20), 2, 40),
            (Settle(3, 5), 1, 55),
            (Reserve(5, 40), 1, 15),
            (Withdraw(3), 1, 20),
            (Withdraw(3), r(17), 0),
            (Withdraw(6), 1, 60),
            (Reserve(5, 40), 1, 20),
            // A refused settling changes nothing.
            (Settle(10, 41), r(21), 0),
            (Withdraw(10), 1, 60),
            (Shelve(60), 1, 0),
        ],
        items: 2,
        looks: 10,
        bins: &[(1, 60, 1), (4, 20, 1)],
    },
    Case {
        name: "a settling makes space where the stock is spent",
        opening: opening(60, 1, 6),
        answered: &[
            (Reserve(2, 60), 1, 0),
            (Shelve(31), r(10), 0),
            (Settle(2, 31), r(20), 0),
            (Settle(1, 29), 1, 31),
            (Shelve(20), r(10), 0),
            (Shelve(31), 1, 0),
            (Shelve(31), r(10), 0),
            (Count, 1, 0),
        ],
        items: 2,
        looks: 1,
        bins: &[(1, 60, 2)],
    },
];

/// The same where the opening has a trailer: it is added to each, but 19 and 21 go
/// by sizes as they are sent.
pub const TRAILED: [Case; 2] = [
    Case {
        name: "a range with a trailer",
        opening: OPEN.with_trailer(5),
        answered: &[
            (Reserve(0, 30), r(19), 0),
            (Reserve(1, 56), r(9), 0),
            (Reserve(1, u32::MAX), r(9), 0),
            (Reserve(u32::MAX, u32::MAX), r(9), 0),
            (Reserve(u32::MAX, u32::MAX - 1), r(19), 0),
            (Reserve(26, 55), 1, 0),
            (Settle(6, 25), r(21), 0),
            (Settle(6, 56), r(21), 0),
            (Settle(6, 60), r(21), 0),
            (Settle(6, u32::MAX), r(21), 0),
            (Settle(6, 26), 1, 29),
            (Settle(6, 26), r(20), 0),
            (Reserve(1, 24), 2, 31),
            (Settle(13, 1), 2, 54),
            (Shelve(15), 3, 40),
            (Reserve(1, 16), 4, 39),
            (Withdraw(13), 2, 60),
            (Withdraw(6), 1, 60),
            (Withdraw(16), 4, 60),
        ],
        items: 1,
        looks: 1,
        bins: &[(1, 0, 0), (2, 0, 0), (4, 20, 1), (3, 0, 0)],
    },
    Case {
        name: "a trailer that leaves no space for a range",
        opening: OPEN.with_trailer(60),
        answered: &[
            (Reserve(1, 1), r(9), 0),
            (Reserve(0, 0), r(19), 0),
            (Reserve(2, 1), r(19), 0),
            (Reserve(1, u32::MAX), r(9), 0),
            (Settle(1, 1), r(20), 0),
            (Count, 0, 0),
        ],
        items: 0,
        looks: 0,
        bins: &[],
    },
];

/// Those of two productions, each with the bins of the second.
const OF_BOTH: [(Case, &[BinLine]); 2] = [
    (
        Case {
            name: "refusal 20 for a master of the other production",
            opening: OPEN,
            answered: &[
                (Reserve(5, 40), 1, 20),
                (Switch(1), 1, 0),
                (Settle(1, 5), r(20), 0),
                (Settle(1, 4), r(20), 0),
                (Settle(2, 1), r(20), 0),
                (Reserve(6, 40), 1, 20),
                (Switch(0), 0, 0),
                (Settle(6, 6), r(20), 0),
                (Settle(1, 5), 1, 55),
                (Switch(1), 1, 0),
                (Settle(1, 5), r(20), 0),
                (Settle(6, 5), r(21), 0),
                (Settle(6, 6), 1, 54),
                (Switch(0), 0, 0),
                (Shelve(55), 1, 0),
            ],
            items: 3,
            looks: 10,
            bins: &[(1, 60, 2)],
        },
        &[(1, 6, 1)],
    ),
    (
        Case {
            name: "a settling in one production makes no space in the other",
            opening: opening(60, 2, 6),
            answered: &[
                (Reserve(5, 60), 1, 0),
                (Switch(1), 1, 0),
                (Reserve(6, 60), 1, 0),
                (Switch(0), 0, 0),
                (Settle(1, 5), 1, 55),
                (Switch(1), 1, 0),
                (Shelve(31), r(10), 0),
                (Settle(3, 29), 1, 31),
                (Shelve(31), 1, 0),
                (Switch(0), 0, 0),
                (Shelve(55), 1, 0),
                (Shelve(20), r(10), 0),
            ],
            items: 4,
            looks: 2,
            bins: &[(1, 60, 2)],
        },
        &[(1, 60, 2)],
    ),
];

pub fn run(cases: &mut Cases) {
    for case in CASES.iter().chain(&TRAILED) {
        cases.shelved(case, &case.stream());
    }
    for (case, second) in &OF_BOTH {
        let (words, free) = case.words();
        cases.shelved_by_both(case, &case.stream(), (&words, &free), [case.bins, second]);
    }
    numbers_of_two_bytes(cases);
    widest_ranges(cases);
    longest_streams(cases);
    longest_printed(cases);
}

/// The most significant byte comes first: 1 is not 256, and 258 is not 513.
fn numbers_of_two_bytes(cases: &mut Cases) {
    let mut greatest = vec![2; 300];
    greatest[256 - 1] = 9;
    greatest[258 - 1] = 5;
    let mut commands: Vec<Command> = greatest.iter().map(|&size| Reserve(1, size)).collect();
    commands.extend([Settle(258, 1), Settle(1, 1), Settle(513, 1), Settle(256, 1)]);
    let mut words = vec![1; 300];
    words.extend([1, 1, r(20), 1]);
    let mut left = 1000;
    let mut free: Vec<u32> = Vec::new();
    for size in greatest {
        left -= size;
        free.push(left);
    }
    free.extend([390 + 4, 394 + 1, 0, 395 + 8]);
    cases.answered(
        "a settling names a number of two bytes",
        &sent(opening(1000, 1, 9), &commands),
        (&words, &free),
        totals(300, 1, 1),
    );
}

/// Sizes of all four bytes, and the largest that there are.
fn widest_ranges(cases: &mut Cases) {
    let name = "a range over the largest cartridge";
    let commands = [
        Reserve(1, MOST_CAPACITY),
        Settle(1, MOST_CAPACITY + 1),
        Settle(1, 0x0001_0203),
        Reserve(0x0002_0304, 0x0003_0405),
        Settle(4, 0x0002_0303),
        Settle(4, 0x0003_0406),
        Settle(4, 0x0003_0405),
        Reserve(1, MOST_CAPACITY + 1),
    ];
    let words = [1, r(21), 1, 2, r(21), r(21), 2, r(9)];
    let small = MOST_CAPACITY - 0x0003_0405;
    let free = [0, 0, MOST_CAPACITY - 0x0001_0203, small, 0, 0, small, 0];
    let stream = sent(opening(MOST_CAPACITY, 2, 6), &commands);
    cases.answered(name, &stream, (&words, &free), totals(2, 2, 1));
    let bins = [(1, 0x0001_0203, 1), (4, 0x0003_0405, 1)];
    cases.sheet(name, stream, &sheet(MOST_CAPACITY, &bins));

    for (capacity, trailer) in [(60, 1), (MOST_CAPACITY, 2), (MOST_CAPACITY, u16::MAX)] {
        let past = u32::MAX - u32::from(trailer) + 1;
        let commands = [
            Reserve(1, u32::MAX),
            Reserve(1, past),
            Reserve(past, past),
            Reserve(u32::MAX, u32::MAX),
            Reserve(u32::MAX, past - 1),
        ];
        cases.answered(
            &format!("ranges past 32 bits, capacity {capacity}, trailer {trailer}"),
            &sent(opening(capacity, 2, 6).with_trailer(trailer), &commands),
            (&[r(9), r(9), r(9), r(9), r(19)], &[0; 5]),
            totals(0, 0, 0),
        );
    }
}

/// As many commands as are allowed, which take more bytes than are printed.
fn longest_streams(cases: &mut Cases) {
    let left = |taken: u32| (1..=4096).map(move |items| MOST_CAPACITY - taken * items);
    let words = [1; MOST_COMMANDS];
    let open = opening(MOST_CAPACITY, 1, 6);
    for (opening, bytes, taken) in [(open, 36_872, 1), (open.with_trailer(2), 36_874, 3)] {
        let name = format!("4,096 masters of a range, {bytes} bytes");
        let stream = sent(opening, &[Reserve(1, 1); MOST_COMMANDS]);
        cases.check(&name, stream.len() == bytes, || stream.len().to_string());
        let free: Vec<u32> = left(taken).collect();
        cases.answered(&name, &stream, (&words, &free), totals(4096, 1, 1));
        cases.sheet(&name, stream.clone(), "L 32768\n");
        for last in [Reserve(1, 1), Settle(1, 1), Count] {
            cases.refused(&name, 6, &stream, &last.bytes(), MOST_COMMANDS);
        }
        cases.refused(&name, 7, &stream, &[], MOST_COMMANDS - 1);
    }

    // As many as are still printed.
    settled_in_turn(cases, "X on one cartridge", MOST_CAPACITY, 100, 4);
    settled_in_turn(cases, "A on one cartridge", 4095, 2048, 1);
}

/// 2,047 masters that are of so many units at the greatest, each settled at 1 before
/// the next, on a cartridge of this class.
fn settled_in_turn(cases: &mut Cases, what: &str, capacity: u32, greatest: u32, class: u32) {
    let name = format!("2,047 {what}, each settled before the next");
    let numbers = (1..4094).step_by(2);
    let pairs = numbers.map(|number| [Reserve(1, greatest), Settle(number, 1)]);
    let stream = sent(
        opening(capacity, 1, 6),
        &pairs.flatten().collect::<Vec<_>>(),
    );
    let left = (0..2047).map(|items| capacity - items);
    let free: Vec<u32> = left.flat_map(|left| [left - greatest, left - 1]).collect();
    let words = [1; 4094];
    cases.answered(&name, &stream, (&words, &free), totals(2047, 1, 1));
    cases.sheet(&name, stream, &sheet(capacity, &[(class, 2047, 2047)]));
}

/// Just as many bytes as are printed, and one more, both accepted.
fn longest_printed(cases: &mut Cases) {
    let mut commands = vec![Reserve(1, 1); 3640];
    let mut words = vec![1; 3640];
    let mut free: Vec<u32> = (1..=3640).map(|items| MOST_CAPACITY - items).collect();
    let open = opening(MOST_CAPACITY, 1, 6);
    let name = "32,768 bytes of ranges have a sheet";
    let stream = sent(open, &commands);
    cases.check(name, stream.len() == 32_768, || stream.len().to_string());
    cases.answered(name, &stream, (&words, &free), totals(3640, 1, 1));
    cases.sheet(name, stream, &sheet(MOST_CAPACITY, &[(4, 3640, 3640)]));

    commands.push(Count);
    words.push(1);
    free.push(0);
    let name = "32,769 bytes of ranges have none";
    let stream = sent(open, &commands);
    cases.answered(name, &stream, (&words, &free), totals(3640, 1, 1));
    cases.sheet(name, stream, "L 32768\n");
}
