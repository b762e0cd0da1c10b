//! Algorithm PM over a row of pictures and a row of sounds.

use shelf::Production::{First, Second};
use shelf::{pair, shelve, Items, Opening, RowFault, RowRefusal, StreamBuilder};
use shelf::{MAX_CAPACITY, MAX_ENTRIES};

/// The answers to two rows, and how many pairs there are.
fn paired(pictures: &[u32], sounds: &[u32], capacity: u32) -> (Vec<u16>, u16) {
    let mut answers = vec![7; pictures.len()];
    let pairs = pair(pictures, sounds, &mut answers, capacity).unwrap();
    (answers, pairs)
}

#[test]
fn the_smallest_picture_gets_the_largest_sound_that_fits() {
    assert_eq!(
        paired(&[40, 20, 50, 20], &[30, 15, 40], 60),
        (vec![2, 3, 0, 1], 3)
    );
    // A sound that is too large beside one picture is too large beside the next: the
    // 51 and the 41 are passed over.
    assert_eq!(
        paired(&[30, 10, 20], &[51, 31, 45, 41, 30], 60),
        (vec![5, 3, 2], 3)
    );
    // A pair may fill its bin. The first picture without a sound ends it.
    assert_eq!(paired(&[60, 59, 58], &[1, 2, 3], 60), (vec![0, 1, 2], 2));
    assert_eq!(paired(&[31, 30], &[30, 31], 60), (vec![0, 1], 1));
}

#[test]
fn of_equal_sizes_the_later_is_counted_larger() {
    // The first of equal pictures takes the last of equal sounds.
    assert_eq!(paired(&[20, 20, 20], &[40, 40, 40], 60), (vec![3, 2, 1], 3));
    assert_eq!(paired(&[20, 20, 20], &[40, 40], 60), (vec![2, 1, 0], 2));
    assert_eq!(paired(&[20, 20], &[40, 40, 40], 60), (vec![3, 2], 2));
    assert_eq!(
        paired(&[30, 20, 30, 20], &[40, 30, 40, 30], 60),
        (vec![4, 3, 2, 1], 4)
    );
}

#[test]
fn a_picture_goes_without_a_sound() {
    assert_eq!(paired(&[31, 31], &[], 60), (vec![0, 0], 0));
    assert_eq!(paired(&[], &[1, 60], 60), (vec![], 0));
    assert_eq!(paired(&[60, 60], &[1, 1, 1], 60), (vec![0, 0], 0));
    assert_eq!(paired(&[1], &[1], 1), (vec![0], 0));
    assert_eq!(paired(&[1], &[1], 2), (vec![1], 1));
}

#[test]
fn words_past_the_last_picture_are_untouched() {
    let mut answers = [7; 5];
    assert_eq!(pair(&[30, 31, 29], &[30; 4], &mut answers, 60), Ok(2));
    assert_eq!(answers, [3, 0, 4, 7, 7]);
    assert_eq!(pair(&[], &[30; 4], &mut answers, 60), Ok(0));
    assert_eq!(answers, [3, 0, 4, 7, 7]);
}

#[test]
fn each_row_has_up_to_4096_sizes() {
    let half = [MAX_CAPACITY / 2; MAX_ENTRIES];
    let (answers, pairs) = paired(&half, &half, MAX_CAPACITY);
    assert_eq!(usize::from(pairs), MAX_ENTRIES);
    assert!((1..)
        .zip(answers.iter().rev())
        .all(|(at, &sound)| sound == at));
    let whole = [MAX_CAPACITY; MAX_ENTRIES];
    assert_eq!(
        paired(&whole, &whole, MAX_CAPACITY),
        (vec![0; MAX_ENTRIES], 0)
    );
}

#[test]
fn refusals_come_in_their_order_and_write_nothing() {
    let long = &[0; MAX_ENTRIES + 1][..];
    let capacity_wrong = RowFault::CapacityOutsideLimits;
    let size_wrong = RowFault::SizeOutsideLimits;
    for (pictures, sounds, words, capacity, fault, place) in [
        (long, long, 0, 0, capacity_wrong, 0),
        (&[0], &[0], 0, MAX_CAPACITY + 1, capacity_wrong, 0),
        (&[], &[], 0, u32::MAX, capacity_wrong, 0),
        (long, &[0], 0, 60, RowFault::AboveLimit, 0),
        (&[0], long, 0, 60, RowFault::AboveLimit, 0),
        (&[60, 1, 0, 61], &[0], 3, 60, size_wrong, 3),
        (&[60, 61], &[0], 9, 60, size_wrong, 2),
        (&[60, 1], &[60, 1, 61, 0], 1, 60, size_wrong, 5),
        (&[], &[0], 0, 60, size_wrong, 1),
        (&[1], &[u32::MAX], 1, MAX_CAPACITY, size_wrong, 2),
        (&[60, 1, 60], &[1], 2, 60, RowFault::TooFewWords, 0),
        (&[1], &[], 0, 1, RowFault::TooFewWords, 0),
    ] {
        let mut answers = [7; 9];
        let refused = pair(pictures, sounds, &mut answers[..words], capacity);
        assert_eq!(refused, Err(RowRefusal { fault, place }));
        assert_eq!(answers, [7; 9]);
    }
    // There may be fewer words than sounds.
    assert_eq!(pair(&[1], &[1, 1], &mut [0], 60), Ok(1));
}

#[test]
fn the_last_place_is_8192() {
    let ones = [1; MAX_ENTRIES];
    let mut sounds = ones;
    sounds[MAX_ENTRIES - 1] = 61;
    let refusal = pair(&ones, &sounds, &mut [7; MAX_ENTRIES], 60).unwrap_err();
    assert_eq!((refusal.fault.number(), refusal.place), (13, 8_192));
}

/// The pairs are what they are said to be.
#[test]
fn each_pair_fits_and_no_sound_is_used_twice() {
    let pictures: Vec<u32> = (0..500).map(|i| i * 37 % 1_000 + 1).collect();
    let sounds: Vec<u32> = (0..400).map(|i| i * 91 % 1_000 + 1).collect();
    let (answers, pairs) = paired(&pictures, &sounds, 1_000);
    let mut used = vec![false; sounds.len()];
    for (picture, &sound) in pictures
        .iter()
        .zip(&answers)
        .filter(|(_, &sound)| sound > 0)
    {
        let at = usize::from(sound) - 1;
        assert!(picture + sounds[at] <= 1_000);
        assert!(!std::mem::replace(&mut used[at], true));
    }
    let above_0 = answers.iter().filter(|&&sound| sound > 0).count();
    assert_eq!(usize::from(pairs), above_0);
}

/// The most pairs of what is left of two rows, by trying every sound for each picture.
fn most(pictures: &[u32], sounds: &mut Vec<u32>, capacity: u32) -> u16 {
    let Some((&picture, rest)) = pictures.split_first() else {
        return 0;
    };
    let mut best = most(rest, sounds, capacity);
    for at in 0..sounds.len() {
        if picture + sounds[at] <= capacity {
            let sound = sounds.swap_remove(at);
            best = best.max(1 + most(rest, sounds, capacity));
            sounds.push(sound);
            let last = sounds.len() - 1;
            sounds.swap(at, last);
        }
    }
    best
}

#[test]
fn no_way_of_pairing_has_more() {
    // Rows of four sizes from 1 to 5, as the digits of a number have them.
    let row = |number: u32| [1, 5, 25, 125].map(|power| number / power % 5 + 1);
    for number in (0..625 * 625).step_by(61) {
        let (pictures, sounds) = (row(number % 625), row(number / 625));
        let (_, pairs) = paired(&pictures, &sounds, 6);
        assert_eq!(pairs, most(&pictures, &mut sounds.to_vec(), 6));
    }
}

#[test]
fn a_shelf_has_stored_sizes_to_pair() {
    let mut stream = StreamBuilder::open_with_trailer(60, 9, 6, 2);
    stream.shelve(38).shelve(28).switch(Second);
    stream.shelve(18).reserve(10, 30).settle(5, 28);
    let (mut words, mut free) = stream.rows();
    shelve(stream.bytes(), &mut words, &mut free).unwrap();

    let items = Items::after(stream.bytes(), &words, &free);
    let opening = Opening::read(stream.bytes()).unwrap();
    let [pictures, sounds] = [First, Second].map(|own| items.stored_sizes(&opening, own));
    assert_eq!((&pictures[..], &sounds[..]), (&[40, 30][..], &[20, 30][..]));
    assert_eq!(
        paired(&pictures, &sounds, opening.capacity),
        (vec![1, 2], 2)
    );
}
