//! A trailer after each item: what goes by an item's size goes by its stored
//! size, and the opening is two bytes longer.

use shelf::{sheet, shelve, Sheet, StreamBuilder, Totals, MAX_CAPACITY, MAX_COMMANDS, MAX_TRAILER};

/// The answers to an item of size 0, and to one above the capacity.
const ZERO: u16 = 32_768 + 8;
const ABOVE: u16 = 32_768 + 9;

/// All that the library says of an accepted stream.
fn answered(stream: &StreamBuilder) -> (Totals, Vec<u16>, Vec<u32>, Sheet) {
    let (mut words, mut free) = stream.rows();
    let totals = shelve(stream.bytes(), &mut words, &mut free).unwrap();
    (totals, words, free, sheet(stream.bytes()))
}

/// The number and the offset of a refused stream, with rows of so many words.
fn refused(stream: &[u8], words: usize) -> (u32, usize) {
    let refusal = shelve(stream, &mut vec![0; words], &mut vec![0; words]).unwrap_err();
    (refusal.fault.number(), refusal.offset)
}

#[test]
fn equal_stored_sizes_are_answered_alike() {
    let stored = [62, 57, 45, 31, 30, 25, 25, 24, 24, 21, 20, 61, 9];
    let answers = |mut stream: StreamBuilder, trailer: u32| {
        for stored in stored {
            stream.shelve(stored - trailer).count();
        }
        stream.withdraw(3).withdraw(7).shelve(24 - trailer);
        answered(&stream)
    };
    let plain = answers(StreamBuilder::open(60, 7, 6), 0);
    for trailer in [0, 1, 3, 8] {
        let stream = StreamBuilder::open_with_trailer(60, 7, 6, trailer);
        assert_eq!(answers(stream, trailer.into()), plain);
    }
}

#[test]
fn a_stored_size_may_pass_32_bits() {
    for trailer in [1, 3, MAX_TRAILER] {
        let mut stream = StreamBuilder::open_with_trailer(MAX_CAPACITY, 1, 6, trailer);
        let first_past = u32::MAX - u32::from(trailer) + 1;
        let most = MAX_CAPACITY - u32::from(trailer);
        stream.shelve(u32::MAX).shelve(first_past).shelve(0);
        stream.shelve(most + 1).shelve(most);
        let (_, words, free, _) = answered(&stream);
        assert_eq!(
            (words, free),
            (vec![ABOVE, ABOVE, ZERO, ABOVE, 1], vec![0; 5])
        );
    }
}

#[test]
fn a_trailer_may_leave_no_space() {
    for trailer in [60, 61, MAX_TRAILER] {
        let mut stream = StreamBuilder::open_with_trailer(60, 4, 6, trailer);
        stream.shelve(0).shelve(1).shelve(60).count();
        let (_, words, free, sheet) = answered(&stream);
        assert_eq!((words, free), (vec![ZERO, ABOVE, ABOVE, 0], vec![0; 4]));
        assert_eq!(sheet.text(), "");
    }
}

#[test]
fn the_longest_stream_is_two_bytes_longer() {
    let mut stream = StreamBuilder::open_with_trailer(MAX_CAPACITY, 1, 6, 1);
    for _ in 0..MAX_COMMANDS {
        stream.shelve(1);
    }
    assert_eq!(stream.bytes().len(), 20_490);
    let (totals, _, free, _) = answered(&stream);
    assert_eq!((totals.items, free[4095]), (4096, MAX_CAPACITY - 8192));
    assert_eq!(refused(stream.bytes(), MAX_COMMANDS - 1), (7, 20_490));
    stream.count();
    assert_eq!(refused(stream.bytes(), MAX_COMMANDS + 1), (6, 20_490));
}

#[test]
fn a_stream_has_one_opening_of_either_kind() {
    let openings = [
        StreamBuilder::open(60, 4, 6).into_bytes(),
        StreamBuilder::open_with_trailer(60, 4, 6, 3).into_bytes(),
    ];
    for first in &openings {
        for second in &openings {
            for len in 1..=second.len() {
                let stream = [first, &second[..len]].concat();
                assert_eq!(refused(&stream, 1), (4, first.len()));
            }
        }
        for len in 1..first.len() {
            assert_eq!(refused(&first[..len], 1), (3, 0));
        }
        for other in [0x00, 0x08, 0x10, 0x12] {
            assert_eq!(
                refused(&[first, &[other][..]].concat(), 1),
                (2, first.len())
            );
            assert_eq!(refused(&[&[other], &first[1..]].concat(), 1), (1, 0));
        }
    }
}

#[test]
fn the_trailer_has_no_limits_of_its_own() {
    for (capacity, stock, m) in [(0, 4, 6), (60, 0, 6), (60, 513, 6), (60, 4, 5), (60, 4, 10)] {
        for trailer in [0, 3, MAX_TRAILER] {
            let stream = StreamBuilder::open_with_trailer(capacity, stock, m, trailer);
            assert_eq!(refused(stream.bytes(), 0), (5, 0));
        }
    }
    for trailer in [0, 1, 255, 256, MAX_TRAILER] {
        let (totals, ..) = answered(&StreamBuilder::open_with_trailer(1, 1, 9, trailer));
        assert_eq!((totals.items, totals.opened), (0, 0));
    }
}
