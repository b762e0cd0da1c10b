//! The trailer's cases by name, their words and sheets written out from the
//! request. Most tell a wrong reading of it from the right one.

use crate::cases::{sent, totals, Case, Cases};
use crate::lists::most_trailer;
use crate::sheet_cases::sheet;
use crate::wire::Command::{self, Count, Reserve, Settle, Shelve, Withdraw};
use crate::wire::{opening, refused_word as r, Opening, MOST_CAPACITY, MOST_COMMANDS};
use crate::{range_cases, withdrawal_cases};

const OPEN: Opening = opening(60, 512, 6);

pub const CASES: [Case; 9] = [
    Case {
        name: "a class goes by the stored size",
        opening: OPEN.with_trailer(1),
        answered: &[
            (Shelve(19), 1, 40),
            (Shelve(20), 2, 39),
            (Shelve(23), 2, 15),
            (Shelve(24), 3, 35),
            (Shelve(29), 3, 5),
            (Shelve(30), 4, 29),
            (Shelve(19), 1, 20),
            (Shelve(59), 5, 0),
            (Shelve(1), 1, 18),
        ],
        items: 9,
        looks: 10,
        bins: &[(4, 42, 3), (3, 45, 2), (2, 55, 2), (1, 31, 1), (1, 60, 1)],
    },
    Case {
        name: "a load goes by the stored sizes",
        opening: OPEN.with_trailer(10),
        answered: &[
            (Shelve(20), 1, 30),
            (Shelve(20), 1, 0),
            (Shelve(20), 2, 30),
            (Shelve(1), 3, 49),
            (Shelve(9), 3, 30),
            (Shelve(10), 3, 10),
            (Shelve(1), 4, 49),
            (Count, 4, 0),
        ],
        items: 7,
        looks: 10,
        bins: &[(2, 60, 2), (2, 30, 1), (4, 50, 3), (4, 11, 1)],
    },
    Case {
        name: "refusal 8 goes by the bare size",
        opening: OPEN.with_trailer(5),
        answered: &[
            (Shelve(0), r(8), 0),
            (Count, 0, 0),
            (Shelve(1), 1, 54),
            (Shelve(0), r(8), 0),
            (Withdraw(1), r(17), 0),
            (Withdraw(3), 1, 60),
        ],
        items: 0,
        looks: 1,
        bins: &[(4, 0, 0)],
    },
    Case {
        name: "refusal 9 goes by the stored size",
        opening: OPEN.with_trailer(5),
        answered: &[
            (Shelve(55), 1, 0),
            (Shelve(56), r(9), 0),
            (Shelve(60), r(9), 0),
            (Shelve(61), r(9), 0),
            (Shelve(65), r(9), 0),
            (Shelve(u32::MAX), r(9), 0),
            (Shelve(54), 2, 1),
        ],
        items: 2,
        looks: 1,
        bins: &[(1, 60, 1), (1, 59, 1)],
    },
    Case {
        name: "refusals 8, 9 and 10 with a trailer, and their order",
        opening: opening(60, 1, 6).with_trailer(5),
        answered: &[
            (Shelve(0), r(8), 0),
            (Shelve(56), r(9), 0),
            (Shelve(30), 1, 25),
            (Shelve(0), r(8), 0),
            (Shelve(56), r(9), 0),
            (Shelve(55), r(10), 0),
            (Shelve(1), r(10), 0),
            (Shelve(26), r(10), 0),
            (Count, 1, 0),
        ],
        items: 1,
        looks: 1,
        bins: &[(1, 35, 1)],
    },
    Case {
        name: "what leaves takes its trailer along",
        opening: OPEN.with_trailer(5),
        answered: &[
            (Shelve(15), 1, 40),
            (Shelve(2), 1, 33),
            (Shelve(15), 1, 13),
            (Withdraw(2), 1, 20),
            (Shelve(15), 1, 0),
            (Withdraw(1), 1, 20),
            (Withdraw(5), 1, 40),
            (Withdraw(3), 1, 60),
            (Shelve(15), 1, 40),
        ],
        items: 1,
        looks: 10,
        bins: &[(4, 20, 1)],
    },
    Case {
        name: "what is a B2 by its trailer is counted as one",
        opening: OPEN.with_trailer(1),
        answered: &[
            (Shelve(20), 1, 39),
            (Shelve(20), 1, 18),
            (Shelve(24), 2, 35),
            (Shelve(20), 3, 39),
            (Shelve(20), 3, 18),
            (Shelve(20), 4, 39),
            // The sixth opens a cartridge, to which an A then comes.
            (Shelve(20), 5, 39),
            (Shelve(38), 5, 0),
            (Shelve(20), 4, 18),
        ],
        items: 9,
        looks: 10,
        bins: &[(3, 42, 2), (2, 25, 1), (3, 42, 2), (3, 42, 2), (1, 60, 2)],
    },
    Case {
        name: "what is an A by its trailer has a B2 beside it, and leaves as an A",
        opening: OPEN.with_trailer(1),
        answered: &[
            (Shelve(30), 1, 29),
            (Shelve(20), 2, 39),
            (Shelve(20), 2, 18),
            (Shelve(20), 3, 39),
            (Shelve(20), 3, 18),
            (Shelve(20), 4, 39),
            (Shelve(20), 1, 8),
            (Withdraw(1), 1, 39),
            (Shelve(20), 4, 18),
            (Shelve(20), 5, 39),
            (Shelve(20), 5, 18),
            (Shelve(20), 6, 39),
            (Shelve(20), 6, 18),
            (Shelve(20), 7, 39),
            (Shelve(38), 1, 0),
        ],
        items: 13,
        looks: 10,
        bins: &[
            (1, 60, 2),
            (3, 42, 2),
            (3, 42, 2),
            (3, 42, 2),
            (3, 42, 2),
            (3, 42, 2),
            (1, 21, 1),
        ],
    },
    Case {
        name: "a trailer of 0",
        opening: OPEN.with_trailer(0),
        answered: &[
            (Shelve(20), 1, 40),
            (Shelve(21), 2, 39),
            (Shelve(60), 3, 0),
            (Shelve(61), r(9), 0),
            (Shelve(0), r(8), 0),
            (Withdraw(1), 1, 60),
            (Count, 3, 0),
        ],
        items: 2,
        looks: 1,
        bins: &[(4, 0, 0), (3, 21, 1), (1, 60, 1)],
    },
];

pub fn run(cases: &mut Cases) {
    for case in &CASES {
        cases.shelved(case, &case.stream());
    }
    for case in withdrawal_cases::CASES.iter().chain(&range_cases::CASES) {
        cases.shelved(case, &with_a_trailer(case));
    }
    trailers_of_two_bytes(cases);
    sums_past_32_bits(cases);
    beside_the_capacity(cases);
    widest_trailer(cases);
}

/// The case's stream with a trailer, as large a one as its sizes leave, and so
/// much less in each size.
fn with_a_trailer(case: &Case) -> Vec<u8> {
    let mut commands = case.commands();
    let sent_sizes = commands.iter_mut().flat_map(sizes);
    let sent_sizes: Vec<u32> = sent_sizes.map(|size| *size).collect();
    let opening = case.opening.with_trailer(most_trailer(&sent_sizes));
    for size in commands.iter_mut().flat_map(sizes) {
        *size = opening.bare(*size);
    }
    sent(opening, &commands)
}

/// The sizes that a command sends.
fn sizes(command: &mut Command) -> Vec<&mut u32> {
    match command {
        Shelve(size) | Settle(_, size) => vec![size],
        Reserve(least, greatest) => vec![least, greatest],
        _ => Vec::new(),
    }
}

/// The most significant byte comes first, behind m and before the commands: each
/// of these would be commands, openings or an unknown one if it were left there,
/// and is another number a byte earlier or later.
fn trailers_of_two_bytes(cases: &mut Cases) {
    for trailer in [
        0x0000, 0x0003, 0x0100, 0x0101, 0x0102, 0x0201, 0x0202, 0x0300, 0x0303, 0x0400, 0x0404,
        0x0500, 0x0501, 0x0606, 0x0707, 0x1101, 0x1111, 0xFF00, 0xFFFF,
    ] {
        let size = 100_000 - u32::from(trailer);
        let commands = [Shelve(size), Shelve(size + 1), Count, Shelve(size - 1)];
        cases.answered(
            &format!("a trailer of {trailer:04X} hex"),
            &sent(opening(100_000, 4, 6).with_trailer(trailer), &commands),
            (&[1, r(9), 1, 2], &[0, 0, 0, 1]),
            totals(2, 2, 1),
        );
    }
}

/// Sizes whose sums have last 32 bits that would fit, and the largest below.
fn sums_past_32_bits(cases: &mut Cases) {
    for (capacity, trailer) in [
        (1, 1),
        (60, 1),
        (60, 2),
        (60, 59),
        (65_534, 65_535),
        (65_535, 65_535),
        (MOST_CAPACITY, 1),
        (MOST_CAPACITY, 2),
        (MOST_CAPACITY, 65_535),
    ] {
        let least = u32::MAX - u32::from(trailer) + 1;
        let sizes = [u32::MAX, u32::MAX - 1, least, least - 1, 1 << 31];
        let near = [least.saturating_add(1), least.saturating_add(capacity)];
        let commands: Vec<Command> = sizes.into_iter().chain(near).map(Shelve).collect();
        cases.answered(
            &format!("sums past 32 bits, capacity {capacity}, trailer {trailer}"),
            &sent(opening(capacity, 2, 6).with_trailer(trailer), &commands),
            (&[r(9); 7], &[0; 7]),
            totals(0, 0, 0),
        );
    }
}

/// A trailer of the capacity or more makes every size but 0 too large, and one
/// of 1 less every size but 0 and 1.
fn beside_the_capacity(cases: &mut Cases) {
    let sizes = [0, 1, 2, 59, 60, 61, 65_534, 65_535, 65_536, u32::MAX];
    let commands = sizes.map(Shelve);
    let mut words = [r(9); 10];
    words[0] = r(8);
    for (capacity, trailer) in [
        (1, 1),
        (1, 2),
        (1, u16::MAX),
        (2, 2),
        (60, 60),
        (60, 61),
        (60, 120),
        (60, u16::MAX),
        (65_534, u16::MAX),
        (65_535, u16::MAX),
    ] {
        let name = format!("capacity {capacity}, trailer {trailer}: not a size fits");
        let stream = sent(opening(capacity, 1, 6).with_trailer(trailer), &commands);
        cases.answered(&name, &stream, (&words, &[0; 10]), totals(0, 0, 0));
        cases.sheet(&name, stream, "");
    }
    words[1] = 1;
    for (capacity, trailer) in [
        (1, 0),
        (2, 1),
        (60, 59),
        (65_535, 65_534),
        (65_536, u16::MAX),
    ] {
        let name = format!("capacity {capacity}, trailer {trailer}: size 1 fits alone");
        let stream = sent(opening(capacity, 1, 6).with_trailer(trailer), &commands);
        cases.answered(&name, &stream, (&words, &[0; 10]), totals(1, 1, 1));
        cases.sheet(&name, stream, &sheet(capacity, &[(1, capacity, 1)]));
    }
}

fn widest_trailer(cases: &mut Cases) {
    let open = opening(MOST_CAPACITY, 512, 9).with_trailer(u16::MAX);
    let name = "the largest trailer on the largest cartridge";
    let mut commands = vec![Shelve(1); 257];
    commands.extend([Shelve(16_711_681), Shelve(16_711_682), Shelve(16_777_216)]);
    let mut words = vec![1; 256];
    words.extend([2, 3, r(9), r(9)]);
    let mut free: Vec<u32> = (1..=256)
        .map(|items| MOST_CAPACITY - 65_536 * items)
        .collect();
    free.extend([16_711_680, 0, 0, 0]);
    let stream = sent(open, &commands);
    cases.answered(name, &stream, (&words, &free), totals(258, 3, 10));
    let lines = [
        "PAGE   1                                \n",
        "   1 4 16777216        0  256           \n",
        "   2 4    65536 16711680    1           \n",
        "   3 1 16777216        0    1           \n",
    ];
    cases.sheet(name, stream, &lines.concat());

    let name = "4,096 trailers on one cartridge";
    let open = opening(MOST_CAPACITY, 1, 6).with_trailer(4095);
    let stream = sent(open, &[Shelve(1); MOST_COMMANDS]);
    let words = [1; MOST_COMMANDS];
    let free: Vec<u32> = (1..=4096)
        .map(|items| MOST_CAPACITY - 4096 * items)
        .collect();
    cases.answered(name, &stream, (&words, &free), totals(4096, 1, 1));
    cases.sheet(
        name,
        stream,
        &sheet(MOST_CAPACITY, &[(4, MOST_CAPACITY, 4096)]),
    );
}
