//! Random streams in which about half of the commands name items: those on the
//! shelf, those gone, and what never was one.

use crate::lists::{b2_opening, bad_size, random_opening, random_size, random_sizes, Sizes};
use crate::making::{numbers, pick, Making};
use crate::rng::Rng;
use crate::streams::{damage, lent, StreamTrial};
use crate::wire::Command::{Count, Shelve, Withdraw};
use crate::wire::{Opening, Stream, MOST_COMMANDS, MOST_STOCK};

pub fn random(rng: &mut Rng) -> StreamTrial {
    let (kind, pieces) = match rng.between(0, 99) {
        0..=29 => ("withdrawals", mixed(rng).pieces()),
        30..=49 => ("emptied cartridges", emptied(rng).pieces()),
        50..=67 => ("B2 beside what is gone", beside_what_is_gone(rng).pieces()),
        68..=82 => ("a stock that is spent and freed", spent(rng).pieces()),
        83..=85 => ("4,096 commands with withdrawals", long(rng).pieces()),
        _ => ("damaged withdrawals", damaged(rng)),
    };
    lent(rng, kind, pieces)
}

/// So many commands: about half of them withdrawals, the others items, good and
/// bad, and counts.
fn half(rng: &mut Rng, opening: Opening, sizes: Sizes, len: usize) -> Stream {
    let mut making = Making::new(opening);
    while making.len() < len {
        let command = match rng.between(0, 99) {
            0..=44 => Withdraw(making.name(rng)),
            45..=50 => Count,
            51..=55 => Shelve(bad_size(rng, opening)),
            _ => Shelve(random_size(rng, sizes, opening)),
        };
        making.send(command);
    }
    making.stream
}

fn mixed(rng: &mut Rng) -> Stream {
    let opening = random_opening(rng);
    let sizes = random_sizes(rng);
    let len = rng.between(0, 90) as usize;
    half(rng, opening, sizes, len)
}

/// As many commands as are allowed, over few bins or many.
fn long(rng: &mut Rng) -> Stream {
    let mut opening = random_opening(rng);
    if rng.chance(50) {
        opening.stock = MOST_STOCK;
    }
    let sizes = random_sizes(rng);
    half(rng, opening, sizes, MOST_COMMANDS)
}

/// Bins that are emptied, of whatever class, before items of all classes come.
fn emptied(rng: &mut Rng) -> Stream {
    let mut opening = random_opening(rng);
    opening.stock = rng.pick(&[2, 4, 6, 12, 40, MOST_STOCK]);
    let sizes = rng.pick(&[Sizes::Classes, Sizes::Classes, Sizes::Edges, Sizes::Uniform]);
    let mut making = Making::new(opening);
    for _ in 0..rng.between(1, 6) {
        for _ in 0..rng.between(1, 14) {
            making.send(Shelve(random_size(rng, sizes, opening)));
        }
        for _ in 0..rng.between(1, 3) {
            making.empty_one(rng);
        }
        if rng.chance(50) {
            making.send(Count);
        }
    }
    making.stream
}

/// B2 items and a few A, where class 1 loses now its A and now its B2: so that
/// an m-th B2 finds bins of class 1 that are empty, that hold a B2 alone, and
/// that hold an A alone.
fn beside_what_is_gone(rng: &mut Rng) -> Stream {
    let (mut opening, b2) = b2_opening(rng);
    opening.stock = rng.pick(&[3, 6, 12, 20, MOST_STOCK]);
    let c = u64::from(opening.capacity);
    let of_class = |stored: u64| Shelve(opening.bare(stored as u32));
    let mut making = Making::new(opening);
    for _ in 0..rng.between(10, 90) {
        let command = match rng.between(0, 19) {
            0..=9 => of_class(rng.between(b2.0, b2.1)),
            10..=13 => of_class(rng.between(c / 2 + 1, c - b2.0)),
            14..=17 => {
                let bins = making.shelf.current().bins.iter();
                let of_class_1 = bins.filter(|bin| bin.class == 1).flat_map(numbers);
                Withdraw(pick(rng, &of_class_1.collect::<Vec<_>>()).unwrap_or(0))
            }
            _ => Withdraw(making.name(rng)),
        };
        making.send(command);
    }
    making.stream
}

/// A stock of few bins: what is refused for want of one often comes again, after
/// a withdrawal or without.
fn spent(rng: &mut Rng) -> Stream {
    let mut opening = random_opening(rng);
    opening.stock = rng.between(1, 5) as u16;
    let sizes = random_sizes(rng);
    let mut making = Making::new(opening);
    for _ in 0..rng.between(5, 40) {
        let size = random_size(rng, sizes, opening);
        if making.send(Shelve(size)) {
            continue;
        }
        for _ in 0..rng.between(0, 3) {
            let name = making.name(rng);
            making.send(Withdraw(name));
        }
        making.send(Shelve(size));
        if rng.chance(20) {
            making.send(Count);
        }
    }
    making.stream
}

fn damaged(rng: &mut Rng) -> Vec<Vec<u8>> {
    let opening = random_opening(rng);
    let sizes = random_sizes(rng);
    let mut pieces = half(rng, opening, sizes, 12).pieces();
    damage(rng, &mut pieces);
    pieces
}
