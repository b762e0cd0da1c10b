//! First-Fit-Decreasing over a row of sizes, and over a shelf's own items.

use shelf::Production::{First, Second};
use shelf::{check_plan, repack, shelve, Entry, Items, Opening, Repacked, RowFault, RowRefusal};
use shelf::{PlanFault, StreamBuilder, MAX_CAPACITY, MAX_ENTRIES};

/// The answers to a row, and its new count.
fn repacked(sizes: &[u32], capacity: u32) -> (Vec<u16>, u16) {
    let mut answers = vec![0; sizes.len()];
    let repacked = repack(sizes, &mut answers, capacity, 0).unwrap();
    (answers, repacked.count)
}

#[test]
fn the_largest_goes_first_and_the_answers_keep_the_order_of_the_row() {
    assert_eq!(repacked(&[20, 35, 40, 25], 60), (vec![1, 2, 1, 2], 2));
    // Neither the fullest bin nor the emptiest, but the first that has space.
    assert_eq!(repacked(&[7, 40, 31, 30, 22], 60), (vec![1, 1, 2, 3, 2], 3));
    // A half and a third: there is one class, and no item waits for another.
    assert_eq!(
        repacked(&[30, 20, 30, 20, 20], 60),
        (vec![1, 2, 1, 2, 2], 2)
    );
}

#[test]
fn equal_sizes_are_placed_in_the_order_of_the_row() {
    assert_eq!(repacked(&[31; 4], 60), (vec![1, 2, 3, 4], 4));
    assert_eq!(repacked(&[20; 7], 60), (vec![1, 1, 1, 2, 2, 2, 3], 3));
    // Three for two that would do: as bad as it gets.
    assert_eq!(
        repacked(&[3, 4, 3, 3, 4, 3], 10),
        (vec![2, 1, 2, 2, 1, 3], 3)
    );
}

#[test]
fn the_old_count_tells_whether_the_move_saves_and_nothing_else() {
    for (sizes, count) in [(&[][..], 0), (&[60], 1), (&[60, 1, 60], 3)] {
        for old in [0, 1, 2, 3, 4, 4_097, u32::MAX] {
            let mut answers = [0; 3];
            let saves_nothing = u32::from(count) >= old;
            let expected = Repacked {
                count,
                saves_nothing,
            };
            assert_eq!(repack(sizes, &mut answers, 60, old), Ok(expected));
            assert_eq!(answers[..sizes.len()], [1, 3, 2][..sizes.len()]);
        }
    }
}

#[test]
fn words_past_the_last_answer_are_untouched() {
    let mut answers = [7; 5];
    repack(&[30, 31, 30], &mut answers, 60, 0).unwrap();
    assert_eq!(answers, [2, 1, 2, 7, 7]);
    repack(&[], &mut answers, 60, 0).unwrap();
    assert_eq!(answers, [2, 1, 2, 7, 7]);
}

#[test]
fn a_row_has_up_to_4096_sizes() {
    let sizes = [MAX_CAPACITY; MAX_ENTRIES];
    let (answers, count) = repacked(&sizes, MAX_CAPACITY);
    assert_eq!(usize::from(count), MAX_ENTRIES);
    assert!((1..).zip(answers).all(|(bin, answer)| answer == bin));
    let (answers, count) = repacked(&[1; MAX_ENTRIES], MAX_CAPACITY);
    assert_eq!((answers, count), (vec![1; MAX_ENTRIES], 1));
}

#[test]
fn refusals_come_in_their_order_and_write_nothing() {
    let long = [0; MAX_ENTRIES + 1];
    let long = &long[..];
    for (sizes, words, capacity, fault, place) in [
        (long, 0, 0, RowFault::CapacityOutsideLimits, 0),
        (
            &[0],
            0,
            MAX_CAPACITY + 1,
            RowFault::CapacityOutsideLimits,
            0,
        ),
        (&[], 0, u32::MAX, RowFault::CapacityOutsideLimits, 0),
        (long, 0, 60, RowFault::AboveLimit, 0),
        (&[60, 1, 0, 61], 3, 60, RowFault::SizeOutsideLimits, 3),
        (&[60, 61, 0], 9, 60, RowFault::SizeOutsideLimits, 2),
        (&[u32::MAX], 1, MAX_CAPACITY, RowFault::SizeOutsideLimits, 1),
        (&[60, 1, 60], 2, 60, RowFault::TooFewWords, 0),
        (&[1], 0, 1, RowFault::TooFewWords, 0),
    ] {
        let mut answers = [7; 9];
        let refused = repack(sizes, &mut answers[..words], capacity, 0);
        assert_eq!(refused, Err(RowRefusal { fault, place }));
        assert_eq!(answers, [7; 9]);
    }
}

#[test]
fn the_answers_are_a_plan_that_passes() {
    let sizes: Vec<u32> = (0..500).map(|i| i * 37 % 1_000 + 1).collect();
    let (answers, count) = repacked(&sizes, 1_000);
    let entries = sizes.iter().zip(answers);
    let plan: Vec<Entry> = entries
        .map(|(&size, bin)| Entry {
            size,
            bin: bin.into(),
        })
        .collect();
    assert_eq!(check_plan(&plan, &sizes, 1_000, count.into()), Ok(()));
    // The last bin is used.
    let refusal = check_plan(&plan, &sizes, 1_000, u32::from(count) - 1).unwrap_err();
    assert_eq!(refusal.fault, PlanFault::EntryBin);
}

#[test]
fn a_shelf_is_repacked_production_by_production_by_its_stored_sizes() {
    let mut stream = StreamBuilder::open_with_trailer(60, 9, 6, 2);
    stream.shelve(33).shelve(20).shelve(38).reserve(3, 28);
    stream
        .switch(Second)
        .reserve(18, 58)
        .shelve(18)
        .settle(6, 38);
    stream.switch(First).withdraw(2);
    let (mut words, mut free) = stream.rows();
    shelve(stream.bytes(), &mut words, &mut free).unwrap();

    let items = Items::after(stream.bytes(), &words, &free);
    let opening = Opening::read(stream.bytes()).unwrap();
    let found = [First, Second].map(|production| {
        let sizes = items.stored_sizes(&opening, production);
        let mut answers = vec![0; sizes.len()];
        let old = items.opened(production).into();
        let repacked = repack(&sizes, &mut answers, opening.capacity, old).unwrap();
        (sizes, answers, old, repacked.count, repacked.saves_nothing)
    });
    // The 22 is out and the 30 not settled; of the others the 60 is settled at 40.
    let first = (vec![35, 40, 30], vec![2, 1, 3], 4, 3, false);
    let second = (vec![40, 20], vec![1, 1], 2, 1, false);
    assert_eq!(found, [first, second]);
}
