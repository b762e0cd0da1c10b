//! The free units' cases by name, their figures written out from the request.

use crate::cases::{case, sent, totals, Cases};
use crate::compare::Outcome;
use crate::rows::Lent;
use crate::wire::Command::{self, Count, Shelve};
use crate::wire::{opening, refused_word as r, Opening, Refusal, Stream, MOST_CAPACITY};

const OPEN: Opening = opening(60, 512, 6);

pub fn run(cases: &mut Cases) {
    figures(cases);
    widest_figures(cases);
    for commands in [0, 1, 2, 3, 50, 4096] {
        row_lengths(cases, commands);
    }
}

fn figures(cases: &mut Cases) {
    let full = [Shelve(60), Count, Shelve(60), Shelve(0), Shelve(61)];
    cases.answered(
        "a full cartridge is told from a refusal by its answer",
        &sent(opening(60, 1, 6), &full),
        (&[1, 1, r(10), r(8), r(9)], &[0; 5]),
        totals(1, 1, 1),
    );
    let filled = [Shelve(30), Shelve(30), Shelve(30)];
    cases.answered(
        "a cartridge filled by its second master",
        &sent(OPEN, &filled),
        (&[1, 1, 2], &[30, 0, 30]),
        totals(3, 2, 10),
    );

    let between = [
        Count,
        Shelve(19),
        Shelve(61),
        Count,
        Shelve(20),
        Shelve(0),
        Shelve(u32::MAX),
        Count,
        Count,
        Shelve(20),
        Shelve(1),
        Shelve(1),
        Count,
    ];
    cases.answered(
        "counts and refusals between the masters of a cartridge",
        &sent(OPEN, &between),
        (
            &[0, 1, r(9), 1, 1, r(8), r(9), 1, 1, 1, 1, 2, 2],
            &[0, 41, 0, 0, 21, 0, 0, 0, 0, 1, 0, 59, 0],
        ),
        totals(5, 2, 10),
    );
    cases.answered(
        "the figure is of the cartridge named, not of the last opened",
        &Stream::of_sizes(OPEN, &[19, 35, 18, 26, 7]).bytes(),
        (&[1, 2, 1, 3, 1], &[41, 25, 23, 34, 16]),
        totals(5, 3, 10),
    );
    for (last, bin, free) in [(38, 4, 0), (37, 4, 1), (39, 5, 21)] {
        cases.answered(
            "the sixth B2 alone in its cartridge, then an A",
            &Stream::of_sizes(OPEN, &[22, 22, 22, 22, 22, 22, last]).bytes(),
            (&[1, 1, 2, 2, 3, 4, bin], &[38, 16, 38, 16, 38, 38, free]),
            totals(7, bin.into(), 10),
        );
    }
    let beside = [35, 22, 22, 22, 22, 22, 22, 3, 25];
    cases.answered(
        "the sixth B2 beside an A",
        &Stream::of_sizes(OPEN, &beside).bytes(),
        (
            &[1, 2, 2, 3, 3, 4, 1, 5, 6],
            &[25, 38, 16, 38, 16, 38, 3, 57, 35],
        ),
        totals(9, 6, 10),
    );
}

fn widest_figures(cases: &mut Cases) {
    let sizes = [1, MOST_CAPACITY - 1, 1, MOST_CAPACITY, 8_388_608];
    cases.answered(
        "the widest figures of the largest capacity",
        &Stream::of_sizes(opening(MOST_CAPACITY, 512, 9), &sizes).bytes(),
        (&[1, 2, 1, 3, 4], &[16_777_215, 1, 16_777_214, 0, 8_388_608]),
        totals(5, 4, 10),
    );
    cases.answered(
        "the only figure of capacity 1",
        &Stream::of_sizes(opening(1, 2, 6), &[1, 1, 1]).bytes(),
        (&[1, 2, r(10)], &[0, 0, 0]),
        totals(2, 2, 1),
    );
}

/// Rows of every two lengths around the number of commands: 7 wherever either
/// row is short, and neither is written; but another fault goes before it.
fn row_lengths(cases: &mut Cases, commands: usize) {
    let turns = [Shelve(1), Count, Shelve(0)].into_iter().cycle();
    let turns: Vec<Command> = turns.take(commands).collect();
    let words: Vec<u16> = [1, 1, r(8)].into_iter().cycle().take(commands).collect();
    let free = (1..).flat_map(|items| [MOST_CAPACITY - items, 0, 0]);
    let free: Vec<u32> = free.take(commands).collect();
    let totals = totals(commands.div_ceil(3), commands.min(1), commands.min(1));

    let stream = sent(opening(MOST_CAPACITY, 1, 6), &turns);
    let at = stream.len();
    // An unknown command; to the longest stream any is one too many.
    let faulty = [&stream[..], &[0x00]].concat();
    let number = if commands == 4096 { 6 } else { 2 };

    let one_less = commands.saturating_sub(1);
    let lengths = [0, one_less, commands, commands + 1, commands + 9];
    for lent in lengths
        .map(|answers| lengths.map(|free| Lent { answers, free }))
        .concat()
    {
        let trial = case(stream.clone(), lent);
        let expected = if lent.answers < commands || lent.free < commands {
            Outcome::refused(&trial, Refusal { number: 7, at })
        } else {
            Outcome::accepted(&trial, totals, &words, &free)
        };
        let name = format!("{lent:?} for {commands} commands");
        cases.both(&name, &trial, &expected);

        let trial = case(faulty.clone(), lent);
        let expected = Outcome::refused(&trial, Refusal { number, at });
        let name = format!("{name}, and another fault");
        cases.both(&name, &trial, &expected);
    }
}
