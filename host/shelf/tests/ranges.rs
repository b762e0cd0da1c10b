//! Sizes known within a range: how such items are shelved, settled and taken out.

use shelf::Production::{First, Second};
use shelf::{
    answers, check_plan, sheet, shelve, Answer, Command, Items, Opening, Production, StreamBuilder,
    Totals, MAX_CAPACITY, MAX_COMMANDS,
};

/// The answers to an item whose range is wrong, to a settling of none that waits for
/// it, and to one outside the range.
const WRONG: u16 = 32_768 + 19;
const NOT_WAITING: u16 = 32_768 + 20;
const OUTSIDE: u16 = 32_768 + 21;
const ABOVE: u16 = 32_768 + 9;
const SPENT: u16 = 32_768 + 10;

/// The totals of an accepted stream, and the words of both rows.
fn answered(stream: &StreamBuilder) -> (Totals, Vec<(u16, u32)>) {
    let (mut words, mut free) = stream.rows();
    let totals = shelve(stream.bytes(), &mut words, &mut free).unwrap();
    (totals, words.into_iter().zip(free).collect())
}

/// What is still shelved after an accepted stream.
fn items(stream: &StreamBuilder) -> Items {
    let (mut words, mut free) = stream.rows();
    shelve(stream.bytes(), &mut words, &mut free).unwrap();
    Items::after(stream.bytes(), &words, &free)
}

#[test]
fn an_item_is_shelved_by_its_greatest_and_settled() {
    let mut stream = StreamBuilder::open(60, 4, 6);
    stream.reserve(10, 40).reserve(10, 20).settle(1, 30);
    stream.shelve(30).shelve(31).settle(2, 20).count();
    let (totals, words) = answered(&stream);
    assert_eq!((totals.items, totals.opened), (4, 4));
    let expected = [(1, 20), (2, 40), (1, 30), (3, 30), (4, 29), (2, 40), (4, 0)];
    assert_eq!(words, expected);

    let (mut words, mut free) = stream.rows();
    shelve(stream.bytes(), &mut words, &mut free).unwrap();
    let read: Vec<_> = answers(stream.bytes(), &words, &free).collect();
    let reserve = Command::Reserve {
        least: 10,
        greatest: 40,
    };
    assert_eq!(read[0], (reserve, Answer::Placed { bin: 1, free: 20 }));
    let settle = Command::Settle {
        number: 1,
        size: 30,
    };
    assert_eq!(read[2], (settle, Answer::Settled { bin: 1, free: 30 }));
}

#[test]
fn a_range_is_refused_in_the_order_19_9_10() {
    let mut stream = StreamBuilder::open_with_trailer(60, 1, 6, 5);
    stream.reserve(0, 56).reserve(57, 56).reserve(1, 56);
    stream.reserve(u32::MAX, u32::MAX).reserve(55, 55);
    stream
        .reserve(0, 1)
        .reserve(2, 1)
        .reserve(1, 56)
        .reserve(1, 1);
    let (totals, words) = answered(&stream);
    assert_eq!((totals.items, totals.opened, totals.looks), (1, 1, 1));
    let words: Vec<u16> = words.into_iter().map(|(word, _)| word).collect();
    let expected = [WRONG, WRONG, ABOVE, ABOVE, 1, WRONG, WRONG, ABOVE, SPENT];
    assert_eq!(words, expected);
}

#[test]
fn a_settling_is_refused_with_20_and_then_with_21() {
    let mut stream = StreamBuilder::open(60, 4, 6);
    stream.settle(0, 9).settle(2, 9).settle(5, 9); // none, itself, a later one
    stream.shelve(20).reserve(9, 20).reserve(9, 8); // 4, 5, 6
    stream.settle(4, 20).settle(6, 8).settle(1, 9).count();
    stream.settle(10, 9).settle(u16::MAX, 9);
    stream.settle(5, 8).settle(5, 21).settle(5, 9).settle(5, 9); // 13 to 16
    stream.reserve(9, 20).withdraw(17).settle(17, 1);
    stream.withdraw(5).settle(5, 9);
    let (totals, words) = answered(&stream);
    assert_eq!((totals.items, totals.opened), (1, 1));
    let refused = |place: usize| words[place].0;
    for place in [0, 1, 2, 6, 7, 8, 10, 11, 15, 18, 20] {
        assert_eq!(words[place], (NOT_WAITING, 0), "{place}");
    }
    assert_eq!(
        (refused(5), refused(12), refused(13)),
        (WRONG, OUTSIDE, OUTSIDE)
    );
    // The 20 and the settled 9, these again without the 17th, and the 20 alone.
    assert_eq!(
        (words[14], words[17], words[19]),
        ((1, 31), (1, 31), (1, 40))
    );
}

#[test]
fn an_item_of_the_other_production_is_not_settled() {
    let mut stream = StreamBuilder::open(60, 4, 6);
    stream
        .reserve(9, 40)
        .switch(Second)
        .settle(1, 9)
        .reserve(8, 40);
    stream.switch(First).settle(4, 8).settle(1, 9);
    stream.switch(Second).settle(4, 8).settle(1, 9);
    let (_, words) = answered(&stream);
    let refused = (NOT_WAITING, 0);
    let expected = [
        (1, 20),
        (1, 0),
        refused,
        (1, 20),
        (0, 0),
        refused,
        (1, 51),
        (1, 0),
        (1, 52),
        refused,
    ];
    assert_eq!(words, expected);
}

#[test]
fn settled_a_items_share_a_bin_and_stay_a() {
    let mut stream = StreamBuilder::open(60, 9, 6);
    stream.reserve(5, 40).settle(1, 5).shelve(31); // both on bin 1
    for _ in 0..5 {
        stream.shelve(22);
    }
    // One of the two is taken out, and the sixth B2 goes beside the other.
    stream.withdraw(3).shelve(22).shelve(20);
    let (_, words) = answered(&stream);
    assert_eq!(words[2], (1, 24));
    assert_eq!(words[8..], [(1, 55), (1, 33), (5, 40)]);
    let rows = sheet(stream.bytes());
    let first = rows.rows()[0];
    assert_eq!((first.class, first.load, first.held), (1, 27, 2));
}

#[test]
fn what_is_still_shelved_has_its_settled_size() {
    let mut stream = StreamBuilder::open_with_trailer(60, 9, 6, 2);
    stream.reserve(5, 38).settle(1, 5).reserve(3, 33).shelve(20);
    stream
        .switch(Second)
        .reserve(1, 58)
        .reserve(1, 18)
        .withdraw(6);
    let (totals, _) = answered(&stream);
    let items = items(&stream);
    assert_eq!(items.iter().count(), usize::from(totals.items));
    let item = |number: u16| {
        items
            .get(number)
            .map(|item| (item.bin, item.size, item.least))
    };
    assert_eq!(item(1), Some((1, 5, None)));
    assert_eq!(item(3), Some((1, 33, Some(3))));
    assert_eq!(item(4), Some((2, 20, None)));
    assert_eq!(item(6), None);
    assert_eq!(item(7), Some((2, 18, Some(1))));
    assert_eq!(
        [First, Second].map(|production| items.opened(production)),
        [2, 2]
    );

    // The loads of the sheet are those of the plan, which passes.
    let opening = Opening::read(stream.bytes()).unwrap();
    let sheet = sheet(stream.bytes());
    for production in Production::BOTH {
        let plan = items.plan(&opening, production);
        let sizes: Vec<u32> = plan.iter().map(|entry| entry.size).collect();
        let k = items.opened(production).into();
        assert_eq!(check_plan(&plan, &sizes, 60, k), Ok(()));
        for row in sheet
            .rows()
            .iter()
            .filter(|row| row.production == production)
        {
            let own = plan.iter().filter(|entry| entry.bin == row.number.into());
            let load: u32 = own.map(|entry| entry.size).sum();
            assert_eq!(row.load, load, "{row:?}");
        }
    }
}

#[test]
fn the_longest_streams_have_no_sheet() {
    let mut stream = StreamBuilder::open_with_trailer(MAX_CAPACITY, 1, 6, 1);
    for _ in 0..MAX_COMMANDS {
        stream.reserve(1, 1);
    }
    assert_eq!(stream.bytes().len(), 36_874);
    let (totals, words) = answered(&stream);
    assert_eq!(
        (totals.items, words[4095]),
        (4096, (1, MAX_CAPACITY - 8192))
    );
    assert_eq!(sheet(stream.bytes()).text(), "L 32768\n");
    let refusal = shelve(stream.count().bytes(), &mut [0; 4097], &mut [0; 4097]).unwrap_err();
    assert_eq!((refusal.fault.number(), refusal.offset), (6, 36_874));
}
