//! The cases of two productions by name, their words and sheets written out from
//! the request. Most tell a wrong reading of it from the right one.

use crate::cases::{all_placed, case, sent, totals, BinLine, Case, Cases, OPENINGS};
use crate::compare::by_paper;
use crate::families;
use crate::rows::Lent;
use crate::sheet_cases::sheets;
use crate::wire::Command::{self, Count, Shelve, Switch, Withdraw};
use crate::wire::{opening, refused_word as r, Opening, Stream, MOST_COMMANDS, MOST_STOCK};
use crate::{range_cases, trailer_cases, withdrawal_cases};

const OPEN: Opening = opening(60, 512, 6);

/// Each case with the bins of the second production.
const CASES: [(Case, &[BinLine]); 14] = [
    (
        Case {
            name: "a switch is answered by its byte",
            opening: OPEN,
            answered: &[
                (Switch(0), 0, 0),
                (Switch(1), 1, 0),
                (Switch(1), 1, 0),
                (Switch(0), 0, 0),
                (Shelve(35), 1, 25),
                (Switch(0), 0, 0),
                (Switch(1), 1, 0),
            ],
            items: 1,
            looks: 1,
            bins: &[(1, 35, 1)],
        },
        &[],
    ),
    (
        Case {
            name: "a stream starts in production 0",
            opening: OPEN,
            answered: &[
                (Shelve(35), 1, 25),
                (Switch(0), 0, 0),
                (Count, 1, 0),
                (Withdraw(1), 1, 60),
            ],
            items: 0,
            looks: 1,
            bins: &[(1, 0, 0)],
        },
        &[],
    ),
    (
        Case {
            name: "each production has cartridges and counts of its own",
            opening: OPEN,
            answered: &[
                (Shelve(35), 1, 25),
                (Shelve(30), 2, 30),
                (Count, 2, 0),
                (Switch(1), 1, 0),
                (Count, 0, 0),
                (Shelve(30), 1, 30),
                (Count, 1, 0),
                (Shelve(20), 2, 40),
                (Shelve(20), 2, 20),
                (Shelve(35), 3, 25),
                (Count, 3, 0),
                (Switch(0), 0, 0),
                (Count, 2, 0),
                (Shelve(30), 2, 0),
                (Shelve(20), 3, 40),
                (Count, 3, 0),
            ],
            items: 8,
            looks: 10,
            bins: &[(1, 35, 1), (2, 60, 2), (4, 20, 1)],
        },
        &[(2, 30, 1), (4, 40, 2), (1, 35, 1)],
    ),
    (
        Case {
            name: "a switch to the current production changes nothing",
            opening: OPEN,
            answered: &[
                (Switch(1), 1, 0),
                (Shelve(22), 1, 38),
                (Switch(1), 1, 0),
                (Shelve(22), 1, 16),
                (Switch(1), 1, 0),
                (Count, 1, 0),
                (Withdraw(2), 1, 38),
            ],
            items: 1,
            looks: 10,
            bins: &[],
        },
        &[(3, 22, 1)],
    ),
    (
        Case {
            name: "each production counts its own B2",
            opening: OPEN,
            answered: &[
                (Shelve(22), 1, 38),
                (Shelve(22), 1, 16),
                (Shelve(22), 2, 38),
                (Switch(1), 1, 0),
                // The fourth to sixth of both, but the first to third here.
                (Shelve(22), 1, 38),
                (Shelve(22), 1, 16),
                (Shelve(22), 2, 38),
                (Switch(0), 0, 0),
                (Shelve(22), 2, 16),
                (Shelve(22), 3, 38),
                (Shelve(22), 4, 38),
                (Switch(1), 1, 0),
                (Shelve(22), 2, 16),
                (Shelve(22), 3, 38),
                (Shelve(22), 4, 38),
                (Shelve(38), 4, 0),
                (Switch(0), 0, 0),
                (Shelve(38), 4, 0),
            ],
            items: 14,
            looks: 10,
            bins: &[(3, 44, 2), (3, 44, 2), (3, 22, 1), (1, 60, 2)],
        },
        &[(3, 44, 2), (3, 44, 2), (3, 22, 1), (1, 60, 2)],
    ),
    (
        Case {
            name: "an m-th B2 does not go beside the other production's A",
            opening: OPEN,
            answered: &[
                (Shelve(35), 1, 25),
                (Switch(1), 1, 0),
                (Shelve(22), 1, 38),
                (Shelve(22), 1, 16),
                (Shelve(22), 2, 38),
                (Shelve(22), 2, 16),
                (Shelve(22), 3, 38),
                (Shelve(22), 4, 38),
                (Switch(0), 0, 0),
                // Nor does an A go to the B2 that waits in the other.
                (Shelve(38), 2, 22),
            ],
            items: 8,
            looks: 10,
            bins: &[(1, 35, 1), (1, 38, 1)],
        },
        &[(3, 44, 2), (3, 44, 2), (3, 22, 1), (1, 22, 1)],
    ),
    (
        Case {
            name: "the stock is spent by both together",
            opening: opening(60, 3, 6),
            answered: &[
                (Shelve(35), 1, 25),
                (Shelve(30), 2, 30),
                (Switch(1), 1, 0),
                (Shelve(20), 1, 40),
                // Neither has opened three, but both have.
                (Shelve(35), r(10), 0),
                (Count, 1, 0),
                (Switch(0), 0, 0),
                (Shelve(20), r(10), 0),
                (Shelve(35), r(10), 0),
                (Count, 2, 0),
                // Where there is space nothing is refused.
                (Shelve(30), 2, 0),
                (Switch(1), 1, 0),
                (Shelve(20), 1, 20),
                (Shelve(20), 1, 0),
                (Shelve(20), r(10), 0),
            ],
            items: 6,
            looks: 3,
            bins: &[(1, 35, 1), (2, 60, 2)],
        },
        &[(4, 60, 3)],
    ),
    (
        Case {
            name: "one production may open the whole stock",
            opening: opening(60, 2, 6),
            answered: &[
                (Switch(1), 1, 0),
                (Shelve(35), 1, 25),
                (Shelve(35), 2, 25),
                (Switch(0), 0, 0),
                (Shelve(1), r(10), 0),
                (Shelve(0), r(8), 0),
                (Shelve(61), r(9), 0),
                (Count, 0, 0),
            ],
            items: 2,
            looks: 1,
            bins: &[],
        },
        &[(1, 35, 1), (1, 35, 1)],
    ),
    (
        Case {
            name: "the other production's emptied cartridges are opened",
            opening: opening(60, 2, 6),
            answered: &[
                (Shelve(35), 1, 25),
                (Shelve(30), 2, 30),
                (Withdraw(1), 1, 60),
                (Withdraw(2), 2, 60),
                (Switch(1), 1, 0),
                (Shelve(35), r(10), 0),
                (Count, 0, 0),
                (Switch(0), 0, 0),
                (Count, 2, 0),
                (Shelve(40), 1, 20),
            ],
            items: 1,
            looks: 2,
            bins: &[(1, 40, 1), (2, 0, 0)],
        },
        &[],
    ),
    (
        Case {
            name: "a B2 that the other production leaves no cartridge is not counted",
            opening: opening(60, 5, 6),
            answered: &[
                (Switch(1), 1, 0),
                (Shelve(35), 1, 25),
                (Shelve(35), 2, 25),
                (Switch(0), 0, 0),
                (Shelve(22), 1, 38),
                (Shelve(22), 1, 16),
                (Shelve(22), 2, 38),
                (Shelve(22), 2, 16),
                (Shelve(22), 3, 38),
                // The sixth, twice.
                (Shelve(22), r(10), 0),
                (Switch(1), 1, 0),
                // The first here.
                (Shelve(22), r(10), 0),
                (Switch(0), 0, 0),
                (Shelve(22), r(10), 0),
                (Count, 3, 0),
            ],
            items: 7,
            looks: 4,
            bins: &[(3, 44, 2), (3, 44, 2), (3, 22, 1)],
        },
        &[(1, 35, 1), (1, 35, 1)],
    ),
    (
        Case {
            name: "refusal 17 for a master of the other production",
            opening: OPEN,
            answered: &[
                (Shelve(35), 1, 25),
                (Switch(1), 1, 0),
                (Withdraw(1), r(17), 0),
                (Shelve(40), 1, 20),
                (Withdraw(1), r(17), 0),
                (Switch(0), 0, 0),
                (Withdraw(4), r(17), 0),
                // It is still there.
                (Withdraw(1), 1, 60),
                (Withdraw(4), r(17), 0),
                (Switch(1), 1, 0),
                (Withdraw(1), r(17), 0),
                (Withdraw(4), 1, 60),
                (Switch(0), 0, 0),
                (Withdraw(4), r(17), 0),
                (Count, 1, 0),
            ],
            items: 0,
            looks: 1,
            bins: &[(1, 0, 0)],
        },
        &[(1, 0, 0)],
    ),
    (
        Case {
            name: "refusal 17 for a switch",
            opening: OPEN,
            answered: &[
                (Switch(1), 1, 0),
                (Shelve(35), 1, 25),
                (Withdraw(1), r(17), 0),
                (Switch(1), 1, 0),
                (Withdraw(4), r(17), 0),
                (Withdraw(7), r(17), 0),
                (Switch(0), 0, 0),
                (Withdraw(7), r(17), 0),
                (Withdraw(2), r(17), 0),
            ],
            items: 1,
            looks: 1,
            bins: &[],
        },
        &[(1, 35, 1)],
    ),
    (
        Case {
            name: "commands are numbered through, whichever their production",
            opening: OPEN,
            answered: &[
                (Shelve(20), 1, 40),
                (Switch(1), 1, 0),
                (Shelve(20), 1, 40),
                (Switch(0), 0, 0),
                (Shelve(19), 1, 21),
                (Switch(1), 1, 0),
                (Shelve(18), 1, 22),
                // By their own numbers these would be 1 and 2.
                (Withdraw(7), 1, 40),
                (Withdraw(2), r(17), 0),
                (Switch(0), 0, 0),
                (Withdraw(5), 1, 40),
                (Withdraw(2), r(17), 0),
            ],
            items: 2,
            looks: 10,
            bins: &[(4, 20, 1)],
        },
        &[(4, 20, 1)],
    ),
    (
        Case {
            name: "both productions have the trailer",
            opening: opening(60, 3, 6).with_trailer(5),
            answered: &[
                (Shelve(30), 1, 25),
                (Switch(1), 1, 0),
                (Shelve(30), 1, 25),
                (Shelve(56), r(9), 0),
                (Shelve(0), r(8), 0),
                (Shelve(55), 2, 0),
                (Withdraw(3), 1, 60),
                (Switch(0), 0, 0),
                (Shelve(17), r(10), 0),
                (Withdraw(3), r(17), 0),
            ],
            items: 2,
            looks: 1,
            bins: &[(1, 35, 1)],
        },
        &[(1, 0, 0), (1, 60, 1)],
    ),
];

pub fn run(cases: &mut Cases) {
    for (case, second) in &CASES {
        let (words, free) = case.words();
        cases.shelved_by_both(case, &case.stream(), (&words, &free), [case.bins, second]);
    }
    let withdrawn = withdrawal_cases::CASES.iter().chain(&trailer_cases::CASES);
    let settled = range_cases::CASES.iter().chain(&range_cases::TRAILED);
    for case in withdrawn.chain(settled) {
        in_the_second(cases, case);
        in_turns(cases, case);
    }
    for opening in OPENINGS {
        no_production(cases, opening);
    }
    pages(cases);
    longest_streams(cases);
    for k in [1, 2, 3, 7, 50, 152] {
        worst_in_both(cases, k);
    }
}

/// The command with another number for each that it names.
fn renumbered(command: Command, number: impl Fn(u16) -> u16) -> Command {
    match command.names() {
        Some(named @ 1..=4096) => command.naming(number(named)),
        _ => command,
    }
}

/// What another case comes to in production 0 it comes to in production 1.
fn in_the_second(cases: &mut Cases, case: &Case) {
    let own = case.commands().into_iter();
    let own = own.map(|command| renumbered(command, |number| number + 1));
    let commands: Vec<Command> = [Switch(1)].into_iter().chain(own).collect();
    let (words, free) = case.words();
    let (words, free) = ([&[1], &words[..]].concat(), [&[0], &free[..]].concat());
    let stream = sent(case.opening, &commands);
    cases.shelved_by_both(case, &stream, (&words, &free), [&[], case.bins]);
}

/// And in both at once, each command in one production and then in the other,
/// where the stock suffices for both.
fn in_turns(cases: &mut Cases, case: &Case) {
    if case.opening.stock < MOST_STOCK {
        return;
    }
    let mut commands = Vec::new();
    let (mut words, mut free) = (Vec::new(), Vec::new());
    for &(command, word, units) in case.answered {
        let first = renumbered(command, |number| 4 * number - 3);
        let second = renumbered(command, |number| 4 * number - 1);
        commands.extend([first, Switch(1), second, Switch(0)]);
        words.extend([word, 1, word, 0]);
        free.extend([units, 0, units, 0]);
    }
    let doubled = Case {
        items: 2 * case.items,
        ..*case
    };
    let stream = sent(case.opening, &commands);
    cases.shelved_by_both(&doubled, &stream, (&words, &free), [case.bins; 2]);
}

/// Refusal 18, and its place in the order at one command: 1, 6, 2, 4, 3, 18, 5.
/// (6 is tried with the 4,097th command.)
fn no_production(cases: &mut Cases, opening: Opening) {
    let shelved = sent(opening, &[Shelve(22)]);
    for byte in [2, 3, 4, 5, 0x11, 127, 128, 254, 255] {
        let fault = [5, byte];
        cases.refused("refusal 18", 18, &shelved, &fault, 4);
        cases.refused("refusal 18 at once", 18, &opening.bytes(), &fault, 4);
        cases.refused("refusal 18 before 7", 18, &shelved, &fault, 0);
        let in_the_second = sent(opening, &[Switch(1)]);
        let name = "refusal 18 in production 1";
        cases.refused(name, 18, &in_the_second, &fault, 4);
        let [by_01, by_11] = OPENINGS.map(|opening| opening.bytes());
        for later in [&[0x08][..], &[5], &[2, 0], &by_01, &by_11, &[5, 2]] {
            let faults = [&fault, later].concat();
            let name = "refusal 18 before a later fault";
            cases.refused(name, 18, &shelved, &faults, 4);
        }
        for (number, earlier) in [(2, &[0x08][..]), (4, &by_01), (4, &by_11)] {
            let faults = [earlier, &fault].concat();
            let name = "an earlier fault before refusal 18";
            cases.refused(name, number, &shelved, &faults, 4);
        }
        let outside = Opening { m: 5, ..opening }.bytes();
        let faults = [&outside[..], &fault].concat();
        cases.refused("a bad opening before refusal 18", 5, &[], &faults, 4);
        cases.refused("refusal 1 before 18", 1, &[], &fault, 4);
    }
    cases.refused("refusal 3 before 18", 3, &shelved, &[5], 4);
    let switched = [&shelved[..], &[5, 1]].concat();
    let name = "what stands behind a switch is its byte";
    cases.refused(name, 4, &switched, &[1], 4);
}

/// None, one, and about a page or two of bins in either production.
fn pages(cases: &mut Cases) {
    let numbers = [0, 1, 49, 50, 51, 100, 101];
    for (first, second) in numbers
        .map(|first| numbers.map(|second| (first, second)))
        .concat()
        .into_iter()
        .chain([(1, 511), (511, 1), (461, 51), (450, 62), (412, 100)])
    {
        let full = |bins: usize| vec![Shelve(60); bins];
        let commands = [vec![Switch(1)], full(second), vec![Switch(0)], full(first)];
        let bins = |bins: usize| vec![(1, 60, 1); bins];
        let text = sheets(60, [&bins(first), &bins(second)]);
        let stream = sent(OPEN, &commands.concat());
        let name = format!("a sheet with {first} and {second} opened");
        cases.sheet(&name, stream, &text);
    }
    // Twelve pages, as many as a stock can take.
    let longest = sheets(60, [&[(1, 60, 1)], &[(1, 60, 1); 511]]).len();
    cases.check("the longest sheet", longest == 21_484, || {
        longest.to_string()
    });
    // Where the pages open, and their numbers.
    let commands = [vec![Shelve(60); 51], vec![Switch(1)], vec![Shelve(60); 50]];
    let full = |number: usize| format!("{number:>4} 1       60        0    1           \n");
    let page = |number: usize| format!("PAGE {number:>3}                                \n");
    let mut text = page(1);
    (1..=50).for_each(|number| text += &full(number));
    text += &(page(2) + &full(51) + &page(3));
    (1..=50).for_each(|number| text += &full(number));
    let name = "a production starts a page, and the page numbers run on";
    cases.sheet(name, sent(OPEN, &commands.concat()), &text);
}

fn longest_streams(cases: &mut Cases) {
    let turns = [Switch(1), Switch(0)].repeat(MOST_COMMANDS / 2);
    let words = [1, 0].repeat(MOST_COMMANDS / 2);
    let name = "4,096 switches";
    let stream = sent(OPEN, &turns);
    let free = [0; MOST_COMMANDS];
    cases.answered(name, &stream, (&words, &free), totals(0, 0, 0));
    cases.sheet(name, stream, "");

    // Production 0 opens the odd ones of the stock, production 1 the even ones.
    let name = "a stock opened in turns";
    let mut commands = Vec::new();
    let (mut words, mut free) = (Vec::new(), Vec::new());
    for number in 1..=MOST_STOCK / 2 {
        commands.extend([Shelve(60), Switch(1), Shelve(60), Switch(0)]);
        words.extend([number, 1, number, 0]);
        free.extend([0; 4]);
    }
    commands.extend([Shelve(60), Count, Switch(1), Shelve(60), Count]);
    words.extend([r(10), 256, 1, r(10), 256]);
    free.extend([0; 5]);
    let stream = sent(OPEN, &commands);
    cases.answered(name, &stream, (&words, &free), totals(512, 512, 1));
    cases.sheet(name, stream, &sheets(60, [&[(1, 60, 1); 256]; 2]));
}

/// A list that does as badly as any, in both productions at once: each opens
/// (5k + 5) / 3, rounded down.
fn worst_in_both(cases: &mut Cases, k: u32) {
    let name = format!("tight in both productions, k = {k}");
    let family = families::tight(k);
    let opened = family.opened as usize;
    let opening = opening(family.capacity, MOST_STOCK, 6);
    let turns = family.sizes.iter().flat_map(|&size| {
        let turn = [Shelve(size), Switch(1), Shelve(size), Switch(0)];
        turn.into_iter()
    });
    let commands: Vec<Command> = turns.collect();
    let stream = Stream { opening, commands };
    let trial = case(stream.bytes(), Lent::both(stream.commands.len()));
    let paper = by_paper(&trial);
    let totals = all_placed(2 * family.sizes.len(), 2 * opened);
    cases.check(&name, paper.totals() == Some(totals), || {
        format!("paper: {paper}")
    });
    for production in [0, 1] {
        let placed = stream.placed(paper.rows.answers(), production);
        let most = placed.iter().map(|&(_, bin)| bin as usize).max();
        cases.check(&name, most == Some(opened), || {
            format!("paper: production {production} opens {most:?}")
        });
    }
    cases.library(&name, &trial, &paper);
}
