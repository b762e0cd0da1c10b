//! The looks of a stream's searches: its third total.

use shelf::Production::{First, Second};
use shelf::{most_looks, shelve, StreamBuilder, MAX_STOCK};

fn looks(stream: &StreamBuilder) -> u8 {
    let (mut words, mut free) = stream.rows();
    shelve(stream.bytes(), &mut words, &mut free).unwrap().looks
}

#[test]
fn the_most_is_one_more_than_the_halvings_of_the_stock() {
    for stock in 1..=MAX_STOCK {
        let halve = |left: &u16| (*left > 1).then_some(left.div_ceil(2));
        let halved = std::iter::successors(Some(stock), halve);
        assert_eq!(usize::from(most_looks(stock)), halved.count(), "{stock}");
    }
}

#[test]
fn a_search_takes_one_look_or_the_most() {
    for stock in 1..=MAX_STOCK {
        let mut stream = StreamBuilder::open(60, stock, 6);
        assert_eq!(looks(&stream), 0);
        stream
            .shelve(0)
            .shelve(61)
            .count()
            .withdraw(1)
            .switch(First)
            .reserve(0, 30)
            .reserve(1, 61)
            .settle(6, 1);
        assert_eq!(looks(&stream), 0, "nothing is searched for");
        stream.shelve(30);
        assert_eq!(looks(&stream), 1, "nothing fits");
        stream.shelve(30);
        assert_eq!(looks(&stream), most_looks(stock), "the second fits");
        // The figure is the largest, neither the last nor a sum.
        stream.shelve(60).shelve(60).count();
        assert_eq!(looks(&stream), most_looks(stock));
    }
}

#[test]
fn an_item_with_a_range_is_searched_for_once() {
    for stock in [1, 2, 3, 8, MAX_STOCK] {
        let mut stream = StreamBuilder::open(60, stock, 6);
        stream.reserve(1, 60).settle(1, 1);
        assert_eq!(
            looks(&stream),
            1,
            "nothing fits, and a settling makes no search"
        );
        stream.reserve(59, 59);
        assert_eq!(looks(&stream), most_looks(stock), "beside the settled one");
    }
}

#[test]
fn what_is_refused_for_the_stock_takes_one_look() {
    for stock in [1, 2, 3, 8, MAX_STOCK] {
        let mut stream = StreamBuilder::open(60, stock, 6);
        for _ in 0..=stock {
            stream.shelve(60);
        }
        stream.switch(Second).shelve(1);
        assert_eq!(looks(&stream), 1, "{stock}");
        // An emptied bin is searched for like any other.
        stream.switch(First).withdraw(1).shelve(60);
        assert_eq!(looks(&stream), most_looks(stock), "{stock}");
    }
}

#[test]
fn the_halvings_are_of_the_whole_stock_in_either_production() {
    for (production, other) in [(First, Second), (Second, First)] {
        let mut stream = StreamBuilder::open(60, MAX_STOCK, 6);
        stream.switch(other);
        for _ in 1..MAX_STOCK {
            stream.shelve(60);
        }
        stream.switch(production).shelve(20);
        assert_eq!(looks(&stream), 1);
        stream.shelve(20).switch(other).shelve(60);
        assert_eq!(looks(&stream), 10);
    }
}
