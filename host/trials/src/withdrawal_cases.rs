//! The withdrawals' cases by name, their words and sheets written out from the
//! request.

use crate::cases::{sent, totals, Case, Cases};
use crate::sheet_cases::sheet;
use crate::wire::Command::{self, Count, Shelve, Withdraw};
use crate::wire::{opening, refused_word as r, MOST_CAPACITY, MOST_COMMANDS, MOST_STOCK};

pub const CASES: [Case; 15] = [
    Case {
        name: "a master leaves its cartridge, and the next goes where it lay",
        opening: opening(60, 512, 6),
        answered: &[
            (Shelve(20), 1, 40),
            (Shelve(20), 1, 20),
            (Shelve(20), 1, 0),
            (Shelve(20), 2, 40),
            (Withdraw(2), 1, 20),
            (Shelve(20), 1, 0),
            (Shelve(20), 2, 20),
        ],
        items: 5,
        looks: 10,
        bins: &[(4, 60, 3), (4, 40, 2)],
    },
    Case {
        name: "the lowest of the emptied cartridges is chosen first",
        opening: opening(60, 512, 6),
        answered: &[
            (Shelve(60), 1, 0),
            (Shelve(60), 2, 0),
            (Shelve(60), 3, 0),
            (Withdraw(3), 3, 60),
            (Withdraw(1), 1, 60),
            (Count, 3, 0),
            (Shelve(60), 1, 0),
            (Shelve(60), 3, 0),
            (Shelve(60), 4, 0),
        ],
        items: 4,
        looks: 10,
        bins: &[(1, 60, 1), (1, 60, 1), (1, 60, 1), (1, 60, 1)],
    },
    Case {
        name: "counts and totals go by every cartridge ever opened",
        opening: opening(60, 3, 6),
        answered: &[
            (Shelve(35), 1, 25),
            (Shelve(30), 2, 30),
            (Shelve(22), 3, 38),
            (Withdraw(2), 2, 60),
            (Count, 3, 0),
            (Withdraw(3), 3, 60),
            (Withdraw(1), 1, 60),
            (Count, 3, 0),
            (Shelve(20), r(10), 0),
            (Shelve(21), 3, 39),
            (Count, 3, 0),
        ],
        items: 1,
        looks: 3,
        bins: &[(1, 0, 0), (2, 0, 0), (3, 21, 1)],
    },
    Case {
        name: "an m-th B2 does not go to a class-1 cartridge that is empty",
        opening: opening(60, 512, 6),
        answered: &[
            (Shelve(35), 1, 25),
            (Withdraw(1), 1, 60),
            (Shelve(22), 2, 38),
            (Shelve(22), 2, 16),
            (Shelve(22), 3, 38),
            (Shelve(22), 3, 16),
            (Shelve(22), 4, 38),
            (Shelve(22), 5, 38),
            (Count, 5, 0),
            // An A does go there, and the next to the B2 that waits for one.
            (Shelve(38), 1, 22),
            (Shelve(38), 5, 0),
        ],
        items: 8,
        looks: 10,
        bins: &[(1, 38, 1), (3, 44, 2), (3, 44, 2), (3, 22, 1), (1, 60, 2)],
    },
    Case {
        name: "an m-th B2 is refused with 10 though a class-1 cartridge is empty",
        opening: opening(60, 4, 6),
        answered: &[
            (Shelve(35), 1, 25),
            (Withdraw(1), 1, 60),
            (Shelve(22), 2, 38),
            (Shelve(22), 2, 16),
            (Shelve(22), 3, 38),
            (Shelve(22), 3, 16),
            (Shelve(22), 4, 38),
            (Shelve(22), r(10), 0),
            // It is the sixth again, and beside an A it is accepted.
            (Shelve(35), 1, 25),
            (Shelve(22), 1, 3),
            (Shelve(22), 4, 16),
        ],
        items: 8,
        looks: 3,
        bins: &[(1, 57, 2), (3, 44, 2), (3, 44, 2), (3, 44, 2)],
    },
    Case {
        name: "an m-th B2 does not go beside a B2 that its A has left",
        opening: opening(60, 512, 6),
        answered: &[
            (Shelve(35), 1, 25),
            (Shelve(22), 2, 38),
            (Shelve(22), 2, 16),
            (Shelve(22), 3, 38),
            (Shelve(22), 3, 16),
            (Shelve(22), 4, 38),
            (Shelve(22), 1, 3),
            (Withdraw(1), 1, 38),
            (Shelve(22), 4, 16),
            (Shelve(22), 5, 38),
            (Shelve(22), 5, 16),
            (Shelve(22), 6, 38),
            (Shelve(22), 6, 16),
            (Shelve(22), 7, 38),
            // An A may join it.
            (Shelve(38), 1, 0),
        ],
        items: 13,
        looks: 10,
        bins: &[
            (1, 60, 2),
            (3, 44, 2),
            (3, 44, 2),
            (3, 44, 2),
            (3, 44, 2),
            (3, 44, 2),
            (1, 22, 1),
        ],
    },
    Case {
        name: "an m-th B2 goes beside an A that its B2 has left",
        opening: opening(60, 512, 6),
        answered: &[
            (Shelve(22), 1, 38),
            (Shelve(22), 1, 16),
            (Shelve(22), 2, 38),
            (Shelve(22), 2, 16),
            (Shelve(22), 3, 38),
            (Shelve(22), 4, 38),
            (Shelve(38), 4, 0),
            (Withdraw(6), 4, 22),
            (Shelve(22), 3, 16),
            (Shelve(22), 5, 38),
            (Shelve(22), 5, 16),
            (Shelve(22), 6, 38),
            (Shelve(22), 6, 16),
            (Shelve(22), 4, 0),
        ],
        items: 12,
        looks: 10,
        bins: &[
            (3, 44, 2),
            (3, 44, 2),
            (3, 44, 2),
            (1, 60, 2),
            (3, 44, 2),
            (3, 44, 2),
        ],
    },
    Case {
        name: "the count of B2 masters never goes back",
        opening: opening(60, 512, 6),
        answered: &[
            (Shelve(22), 1, 38),
            (Withdraw(1), 1, 60),
            (Shelve(22), 1, 38),
            (Withdraw(3), 1, 60),
            (Shelve(22), 1, 38),
            (Withdraw(5), 1, 60),
            (Shelve(22), 1, 38),
            (Withdraw(7), 1, 60),
            (Shelve(22), 1, 38),
            (Withdraw(9), 1, 60),
            (Shelve(22), 2, 38),
            // Nor does it when the sixth itself is taken out.
            (Withdraw(11), 2, 60),
            (Shelve(22), 1, 38),
        ],
        items: 1,
        looks: 10,
        bins: &[(3, 22, 1), (1, 0, 0)],
    },
    Case {
        name: "refusal 17 on an empty shelf",
        opening: opening(60, 512, 6),
        answered: &[
            (Withdraw(0), r(17), 0),
            (Withdraw(2), r(17), 0),
            (Withdraw(1), r(17), 0),
            (Withdraw(5), r(17), 0),
            (Withdraw(4096), r(17), 0),
            (Withdraw(4097), r(17), 0),
            (Withdraw(u16::MAX), r(17), 0),
            (Count, 0, 0),
        ],
        items: 0,
        looks: 0,
        bins: &[],
    },
    Case {
        name: "refusal 17 for all that is no master on the shelf",
        opening: opening(60, 512, 6),
        answered: &[
            (Shelve(35), 1, 25),
            (Shelve(0), r(8), 0),
            (Shelve(61), r(9), 0),
            (Count, 1, 0),
            (Withdraw(5), r(17), 0),
            (Withdraw(7), r(17), 0),
            (Withdraw(2), r(17), 0),
            (Withdraw(3), r(17), 0),
            (Withdraw(4), r(17), 0),
            (Withdraw(5), r(17), 0),
            (Withdraw(0), r(17), 0),
            (Withdraw(4097), r(17), 0),
            (Withdraw(u16::MAX), r(17), 0),
            (Withdraw(1), 1, 60),
            (Withdraw(1), r(17), 0),
            (Withdraw(14), r(17), 0),
            (Shelve(40), 1, 20),
            (Withdraw(1), r(17), 0),
            (Withdraw(17), 1, 60),
            (Count, 1, 0),
        ],
        items: 0,
        looks: 10,
        bins: &[(1, 0, 0)],
    },
    Case {
        name: "a later number is refused, and named again when it is earlier",
        opening: opening(60, 512, 6),
        answered: &[
            (Withdraw(2), r(17), 0),
            (Shelve(35), 1, 25),
            (Withdraw(2), 1, 60),
            (Withdraw(2), r(17), 0),
        ],
        items: 0,
        looks: 1,
        bins: &[(1, 0, 0)],
    },
    Case {
        name: "a master refused with 10 is not on the shelf; 10 comes and goes",
        opening: opening(60, 1, 6),
        answered: &[
            (Shelve(60), 1, 0),
            (Shelve(60), r(10), 0),
            (Withdraw(2), r(17), 0),
            (Shelve(60), r(10), 0),
            (Withdraw(1), 1, 60),
            (Withdraw(2), r(17), 0),
            (Shelve(1), r(10), 0),
            (Shelve(60), 1, 0),
            (Shelve(31), r(10), 0),
            (Withdraw(8), 1, 60),
            (Shelve(31), 1, 29),
        ],
        items: 1,
        looks: 1,
        bins: &[(1, 31, 1)],
    },
    Case {
        name: "a refused withdrawal changes nothing",
        opening: opening(60, 2, 6),
        answered: &[
            (Shelve(22), 1, 38),
            (Withdraw(0), r(17), 0),
            (Shelve(22), 1, 16),
            (Withdraw(4), r(17), 0),
            (Shelve(22), 2, 38),
            (Withdraw(4), r(17), 0),
            (Shelve(22), 2, 16),
            (Withdraw(2), r(17), 0),
            (Shelve(22), r(10), 0),
            (Withdraw(9), r(17), 0),
            (Withdraw(1), 1, 38),
            (Withdraw(1), r(17), 0),
            (Shelve(22), 1, 16),
            (Withdraw(5), 2, 38),
            (Withdraw(5), r(17), 0),
            // The sixth, to which no class-3 cartridge is permitted.
            (Shelve(22), r(10), 0),
        ],
        items: 3,
        looks: 2,
        bins: &[(3, 44, 2), (3, 22, 1)],
    },
    Case {
        name: "equal masters are told apart by their commands",
        opening: opening(60, 512, 6),
        answered: &[
            (Shelve(30), 1, 30),
            (Shelve(30), 1, 0),
            (Shelve(30), 2, 30),
            (Withdraw(3), 2, 60),
            (Withdraw(2), 1, 30),
            (Withdraw(3), r(17), 0),
            (Withdraw(1), 1, 60),
        ],
        items: 0,
        looks: 10,
        bins: &[(2, 0, 0), (2, 0, 0)],
    },
    Case {
        name: "what leaves is as large as it came",
        opening: opening(60, 512, 6),
        answered: &[
            (Shelve(7), 1, 53),
            (Shelve(11), 1, 42),
            (Shelve(20), 1, 22),
            (Withdraw(2), 1, 33),
            (Withdraw(1), 1, 40),
            (Withdraw(3), 1, 60),
            (Shelve(20), 1, 40),
        ],
        items: 1,
        looks: 10,
        bins: &[(4, 20, 1)],
    },
];

pub fn run(cases: &mut Cases) {
    for case in &CASES {
        cases.shelved(case, &case.stream());
    }
    emptied_of_each_class(cases);
    numbers_of_two_bytes(cases);
    longest_streams(cases);
    widest_figure(cases);
}

/// An emptied cartridge is chosen by the masters of its class, and by no other:
/// for those a new one is opened, or the stock is spent.
fn emptied_of_each_class(cases: &mut Cases) {
    let classes = [(1, 35), (2, 30), (3, 22), (4, 20)];
    for (class, size) in classes {
        for (other, next) in classes {
            for stock in [1, 2] {
                let (last, left, bins) = match stock {
                    _ if other == class => (1, 60 - next, vec![(class, next, 1)]),
                    1 => (r(10), 0, vec![(class, 0, 0)]),
                    _ => (2, 60 - next, vec![(class, 0, 0), (other, next, 1)]),
                };
                let opened = bins.len();
                let items = usize::from(last != r(10));
                let looks = if other == class && stock == 2 { 2 } else { 1 };
                let name = format!("class {class} emptied, class {other} next, stock {stock}");
                let commands = [Shelve(size), Withdraw(1), Count, Shelve(next), Count];
                let stream = sent(opening(60, stock, 6), &commands);
                let words = [1, 1, 1, last, opened as u16];
                let free = [60 - size, 60, 0, left, 0];
                let totals = totals(items, opened, looks);
                cases.answered(&name, &stream, (&words, &free), totals);
                cases.sheet(&name, stream, &sheet(60, &bins));
            }
        }
    }
}

/// The most significant byte comes first: 1 is not 256, and 258 is not 513.
fn numbers_of_two_bytes(cases: &mut Cases) {
    let mut sizes = vec![1; 300];
    sizes[256 - 1] = 3;
    sizes[258 - 1] = 2;
    let mut commands: Vec<Command> = sizes.iter().copied().map(Shelve).collect();
    commands.extend([Withdraw(258), Withdraw(1), Withdraw(513), Withdraw(256)]);
    let mut words = vec![1; 300];
    words.extend([1, 1, r(17), 1]);
    let mut left = 1000;
    let mut free: Vec<u32> = Vec::new();
    for size in sizes {
        left -= size;
        free.push(left);
    }
    free.extend([697 + 2, 699 + 1, 0, 700 + 3]);
    cases.answered(
        "a number of two bytes",
        &sent(opening(1000, 1, 9), &commands),
        (&words, &free),
        totals(297, 1, 1),
    );
}

fn longest_streams(cases: &mut Cases) {
    let most = MOST_COMMANDS as u16;
    let pairs = (1..most)
        .step_by(2)
        .map(|number| [Shelve(60), Withdraw(number)]);
    let words = [1; MOST_COMMANDS];
    let free = [0, 60].repeat(MOST_COMMANDS / 2);
    cases.answered(
        "2,048 masters, each taken out before the next",
        &sent(opening(60, 512, 6), &pairs.flatten().collect::<Vec<_>>()),
        (&words, &free),
        totals(0, 1, 10),
    );

    let mut commands = vec![Shelve(1); MOST_COMMANDS - 2];
    commands.extend([Withdraw(most - 2), Withdraw(most)]);
    let mut words = vec![1; MOST_COMMANDS - 1];
    words.push(r(17));
    let mut free: Vec<u32> = (1..u32::from(most) - 1)
        .map(|items| MOST_CAPACITY - items)
        .collect();
    free.extend([MOST_CAPACITY - 4093, 0]);
    cases.answered(
        "the last masters of 4,096 commands are named, and a name of itself",
        &sent(opening(MOST_CAPACITY, 1, 6), &commands),
        (&words, &free),
        totals(4093, 1, 1),
    );

    let name = "a whole stock emptied";
    let mut commands = vec![Shelve(60); MOST_STOCK.into()];
    commands.extend((1..=MOST_STOCK).rev().map(Withdraw));
    commands.extend([Count, Shelve(20), Shelve(60)]);
    let opened = 1..=MOST_STOCK;
    let words: Vec<u16> = opened
        .clone()
        .chain(opened.rev())
        .chain([512, r(10), 1])
        .collect();
    let mut free = vec![0; 512];
    free.extend([60; 512]);
    free.extend([0, 0, 0]);
    let stream = sent(opening(60, MOST_STOCK, 6), &commands);
    cases.answered(name, &stream, (&words, &free), totals(1, 512, 10));
    let mut bins = vec![(1, 0, 0); 512];
    bins[0] = (1, 60, 1);
    cases.sheet(name, stream, &sheet(60, &bins));
}

fn widest_figure(cases: &mut Cases) {
    let name = "an emptied cartridge of the largest capacity";
    let stream = sent(
        opening(MOST_CAPACITY, 512, 9),
        &[Shelve(MOST_CAPACITY), Withdraw(1)],
    );
    let words = (&[1, 1][..], &[0, 16_777_216][..]);
    cases.answered(name, &stream, words, totals(0, 1, 1));
    let lines = [
        "PAGE   1                                \n",
        "   1 1        0 16777216    0           \n",
    ];
    cases.sheet(name, stream, &lines.concat());
    let name = "an emptied cartridge of capacity 1";
    let stream = sent(opening(1, 1, 6), &[Shelve(1), Withdraw(1), Shelve(1)]);
    let words = (&[1, 1, 1][..], &[0, 1, 0][..]);
    cases.answered(name, &stream, words, totals(1, 1, 1));
}
