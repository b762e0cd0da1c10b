//! Two productions on one stock: what each has of its own, and what both share.

use shelf::Production::{First, Second};
use shelf::{
    answers, check_plan, productions, sheet, shelve, Answer, Command, CommandRefusal, Entry,
    Production, Row, StreamBuilder, Totals, MAX_COMMANDS, MAX_STOCK, SHEET_BYTES,
};

/// The answers to an item for which the stock is spent, and to a withdrawal of
/// none that is on the shelf.
const SPENT: u16 = 32_768 + 10;
const NOT_SHELVED: u16 = 32_768 + 17;

/// The totals of an accepted stream, and the words of both rows.
fn answered(stream: &StreamBuilder) -> (Totals, Vec<u16>, Vec<u32>) {
    let (mut words, mut free) = stream.rows();
    let totals = shelve(stream.bytes(), &mut words, &mut free).unwrap();
    (totals, words, free)
}

/// The number and the offset of a refused stream, whose rows stay as they were.
fn refused(stream: &[u8], words: usize) -> (u32, usize) {
    let (mut answers, mut free) = (vec![7; words], vec![7; words]);
    let refusal = shelve(stream, &mut answers, &mut free).unwrap_err();
    assert_eq!((answers, free), (vec![7; words], vec![7; words]));
    (refusal.fault.number(), refusal.offset)
}

/// A stream in which each production fills so many bins.
fn full_bins(first: u16, second: u16) -> StreamBuilder {
    let mut stream = StreamBuilder::open(60, MAX_STOCK, 6);
    for (production, bins) in [(Second, second), (First, first)] {
        stream.switch(production);
        for _ in 0..bins {
            stream.shelve(60);
        }
    }
    stream
}

/// The lines of a stream's sheet that open a page: where they stand, and their
/// numbers.
fn pages(stream: &StreamBuilder) -> Vec<(usize, usize)> {
    let sheet = sheet(stream.bytes());
    let lines = sheet.text().lines().enumerate();
    let pages = lines.filter_map(|(at, line)| {
        let number = line.strip_prefix("PAGE")?;
        Some((at, number.trim().parse().unwrap()))
    });
    pages.collect()
}

#[test]
fn a_switch_is_answered_by_its_byte() {
    let mut stream = StreamBuilder::open(60, 4, 6);
    stream.switch(First).switch(Second).switch(Second);
    stream.switch(First).shelve(35);
    let (totals, words, free) = answered(&stream);
    assert_eq!((totals.items, totals.opened), (1, 1));
    assert_eq!(words, [0, 1, 1, 0, 1]);
    assert_eq!(free, [0, 0, 0, 0, 25]);

    let answers: Vec<_> = answers(stream.bytes(), &words, &free).collect();
    let switched = |production| (Command::Switch(production), Answer::Switched(production));
    let switches = [First, Second, Second, First].map(switched);
    assert_eq!(answers[..4], switches);
}

#[test]
fn each_production_has_bins_and_counts_of_its_own() {
    let mut stream = StreamBuilder::open(60, 8, 6);
    stream.shelve(35).shelve(30).count();
    stream.switch(Second).count().shelve(20).count();
    stream.switch(Second).shelve(22).count();
    stream.switch(First).count().shelve(22);
    let (totals, words, free) = answered(&stream);
    assert_eq!((totals.items, totals.opened), (5, 5));
    assert_eq!(words, [1, 2, 2, 1, 0, 1, 1, 1, 2, 2, 0, 2, 3]);
    assert_eq!(free, [25, 30, 0, 0, 0, 40, 0, 0, 38, 0, 0, 0, 38]);
}

#[test]
fn each_production_counts_its_own_b2_items() {
    let mut stream = StreamBuilder::open(60, 20, 6);
    for _ in 0..6 {
        stream.switch(First).shelve(22);
        stream.switch(Second).shelve(22);
    }
    let (_, words, _) = answered(&stream);
    let bins = |at: usize| words.iter().skip(at).step_by(4).copied();
    for at in [1, 3] {
        assert_eq!(bins(at).collect::<Vec<_>>(), [1, 1, 2, 2, 3, 4]);
    }
}

#[test]
fn an_item_of_the_other_production_is_not_taken_out() {
    let mut stream = StreamBuilder::open(60, 4, 6);
    stream.shelve(35).switch(Second).withdraw(1);
    stream.shelve(40).withdraw(2).switch(First).withdraw(4);
    stream.withdraw(1).switch(Second).withdraw(4).withdraw(1);
    let (totals, words, free) = answered(&stream);
    assert_eq!((totals.items, totals.opened), (0, 2));
    let expected = [
        (1, 25),
        (1, 0),
        (NOT_SHELVED, 0),
        (1, 20),
        (NOT_SHELVED, 0),
        (0, 0),
        (NOT_SHELVED, 0),
        (1, 60),
        (1, 0),
        (1, 60),
        (NOT_SHELVED, 0),
    ];
    let words: Vec<(u16, u32)> = words.into_iter().zip(free).collect();
    assert_eq!(words, expected);
}

#[test]
fn the_stock_is_spent_by_both_together() {
    for (production, other) in [(First, Second), (Second, First)] {
        let mut stream = StreamBuilder::open(60, 3, 6);
        stream.switch(production).shelve(30).shelve(35);
        stream.switch(other).shelve(20);
        // Another class is refused, and what fits is placed, on either side.
        stream.shelve(35).shelve(20).shelve(30);
        stream.switch(production).shelve(20).shelve(30).shelve(30);
        // An emptied bin is opened all the same.
        stream.withdraw(3).shelve(20).shelve(60).count();
        let (totals, words, free) = answered(&stream);
        assert_eq!((totals.items, totals.opened), (5, 3));
        let (to, from) = (other.number().into(), production.number().into());
        let expected = [
            (from, 0),
            (1, 30),
            (2, 25),
            (to, 0),
            (1, 40),
            (SPENT, 0),
            (1, 20),
            (SPENT, 0),
            (from, 0),
            (SPENT, 0),
            (1, 0),
            (SPENT, 0),
            (2, 60),
            (SPENT, 0),
            (2, 0),
            (2, 0),
        ];
        let words: Vec<(u16, u32)> = words.into_iter().zip(free).collect();
        assert_eq!(words, expected);
    }
}

#[test]
fn one_production_may_open_the_whole_stock() {
    for (first, second) in [(512, 0), (0, 512), (1, 511), (256, 256)] {
        let mut stream = full_bins(first, second);
        stream.count().switch(Second).count().shelve(1);
        let (totals, words, _) = answered(&stream);
        assert_eq!((totals.items, totals.opened), (512, 512));
        assert_eq!(words[words.len() - 4..], [first, 1, second, SPENT]);
    }
}

#[test]
fn a_byte_above_1_is_refused_at_its_command() {
    let opening = StreamBuilder::open(60, 4, 6);
    for number in [2, 3, 5, 127, 128, 255] {
        let mut stream = opening.clone();
        stream.shelve(35).switch(number).switch(Second);
        assert_eq!(refused(stream.bytes(), 3), (18, 13));
        // It comes before too few words, and what is behind it does not count.
        assert_eq!(refused(stream.bytes(), 0), (18, 13));
        let behind = [stream.bytes(), &[0x09]].concat();
        assert_eq!(refused(&behind, 3), (18, 13));
        // The first faulty command decides.
        let before = [opening.bytes(), &[0x09], &stream.bytes()[8..]].concat();
        assert_eq!(refused(&before, 4), (2, 8));
        let second = [opening.bytes(), &[0x01], &stream.bytes()[8..]].concat();
        assert_eq!(refused(&second, 4), (4, 8));
    }
}

#[test]
fn a_switch_without_its_byte_is_cut_short() {
    let mut stream = StreamBuilder::open_with_trailer(60, 4, 6, 3);
    stream.count().switch(2);
    let bytes = stream.bytes();
    assert_eq!(refused(&bytes[..12], 2), (3, 11));
    assert_eq!(refused(bytes, 2), (18, 11));
    // The next command's byte is taken for it.
    assert_eq!(refused(&[&bytes[..12], &[0x03]].concat(), 2), (18, 11));
}

#[test]
fn the_opening_decides_before_a_switch() {
    let mut stream = StreamBuilder::open(0, 4, 6);
    stream.switch(2);
    assert_eq!(refused(stream.bytes(), 1), (5, 0));
    assert_eq!(refused(&stream.bytes()[8..], 1), (1, 0));
    assert_eq!(refused(&[0x05, 0x01], 1), (1, 0));
}

#[test]
fn a_switch_is_one_of_the_commands() {
    let mut stream = StreamBuilder::open(60, 4, 6);
    for at in 0..MAX_COMMANDS {
        stream.switch((at % 2) as u8);
    }
    let (totals, words, free) = answered(&stream);
    assert_eq!((totals.items, totals.opened), (0, 0));
    assert_eq!(words, [0, 1].repeat(MAX_COMMANDS / 2));
    assert_eq!(free, [0].repeat(MAX_COMMANDS));
    let len = stream.bytes().len();
    assert_eq!(refused(stream.bytes(), MAX_COMMANDS - 1), (7, len));
    stream.switch(2);
    assert_eq!(refused(stream.bytes(), MAX_COMMANDS + 1), (6, len));
}

#[test]
fn the_sheet_has_the_first_production_and_then_the_second() {
    let mut stream = StreamBuilder::open(60, 8, 6);
    stream.switch(Second).shelve(20).shelve(35);
    stream.switch(First).shelve(30);
    stream.switch(Second).shelve(20).withdraw(3);
    let sheet = sheet(stream.bytes());
    let lines = [
        "PAGE   1                                \n",
        "   1 2       30       30    1           \n",
        "PAGE   2                                \n",
        "   1 4       40       20    2           \n",
        "   2 1        0       60    0           \n",
    ];
    assert_eq!(sheet.text(), lines.concat());
    let row = |production, number, class, load, held| Row {
        production,
        number,
        class,
        load,
        free: 60 - load,
        held,
    };
    let rows = [
        row(First, 1, 2, 30, 1),
        row(Second, 1, 4, 40, 2),
        row(Second, 2, 1, 0, 0),
    ];
    assert_eq!(sheet.rows(), rows);
}

#[test]
fn each_production_starts_a_page_and_the_numbers_run_on() {
    assert_eq!(pages(&full_bins(1, 1)), [(0, 1), (2, 2)]);
    assert_eq!(pages(&full_bins(50, 51)), [(0, 1), (51, 2), (102, 3)]);
    assert_eq!(pages(&full_bins(51, 1)), [(0, 1), (51, 2), (53, 3)]);
    assert_eq!(pages(&full_bins(0, 51)), [(0, 1), (51, 2)]);
    let longest = full_bins(1, 511);
    assert_eq!(pages(&longest).last(), Some(&(512, 12)));
    assert_eq!(sheet(longest.bytes()).text().len(), SHEET_BYTES);
}

#[test]
fn a_production_alone_has_the_same_text_and_its_own_rows() {
    let alone = |production: Production| {
        let mut stream = StreamBuilder::open(60, 2, 6);
        // The other production has commands too, but opens nothing.
        for other in Production::BOTH {
            stream.switch(other).shelve(61).count();
        }
        stream.switch(production).shelve(35).shelve(30).withdraw(8);
        let other = Production::BOTH[usize::from(production == First)];
        stream.switch(other).shelve(20);
        sheet(stream.bytes())
    };
    let sheets = Production::BOTH.map(|production| (production, alone(production)));
    assert_eq!(sheets[0].1.text(), sheets[1].1.text());
    for (production, sheet) in sheets {
        let rows = sheet.rows().iter();
        let rows: Vec<_> = rows.map(|row| (row.production, row.number)).collect();
        assert_eq!(rows, [(production, 1), (production, 2)]);
    }
}

#[test]
fn each_production_has_a_plan_of_its_own() {
    let mut stream = StreamBuilder::open(60, 9, 6);
    for at in 0..40_u32 {
        stream.switch((at % 3 / 2) as u8).shelve(at * 17 % 62);
    }
    let (totals, words, free) = answered(&stream);
    let mut plans = Production::BOTH.map(|_| Vec::new());
    let mut spent = 0;
    let answers = answers(stream.bytes(), &words, &free);
    for (answered, production) in answers.zip(productions(stream.bytes())) {
        match answered {
            (Command::Shelve { size }, Answer::Placed { bin, .. }) => {
                let bin = bin.into();
                plans[usize::from(production.number())].push(Entry { size, bin });
            }
            (_, Answer::Refused(CommandRefusal::StockSpent)) => spent += 1,
            _ => {}
        }
    }
    assert!(spent > 0);
    let mut opened = 0;
    for plan in plans {
        let items: Vec<u32> = plan.iter().map(|entry| entry.size).collect();
        let k = plan.iter().map(|entry| entry.bin).max().unwrap();
        assert_eq!(check_plan(&plan, &items, 60, k), Ok(()));
        opened += k;
    }
    assert_eq!(opened, totals.opened.into());
}
