//! Random streams of items whose sizes are known within a range, with settlings
//! and withdrawals, in both productions.

use crate::lists::{b2_opening, b2_run, bad_range, bad_size, family, list, short_list};
use crate::lists::{random_opening, random_size, random_sizes, range_to, Sizes};
use crate::making::{numbers, pick, waiting, Making};
use crate::paper::{Bin, SizeClass};
use crate::productions::{switch, two_lists};
use crate::rng::Rng;
use crate::streams::{damage, lent, StreamTrial};
use crate::wire::Command::{self, Count, Reserve, Settle, Shelve, Withdraw};
use crate::wire::{Opening, Stream, MOST_COMMANDS, MOST_PRINTED, MOST_STOCK};

pub fn random(rng: &mut Rng) -> StreamTrial {
    let (kind, pieces) = match rng.between(0, 99) {
        0..=29 => ("ranges", mixed(rng).pieces()),
        30..=54 => ("several A on a cartridge", several_a(rng).pieces()),
        55..=66 => ("a stock that settlings free", spent(rng).pieces()),
        67..=82 => ("lists by the greatest", by_the_greatest(rng).pieces()),
        83..=84 => ("4,096 commands with ranges", long(rng).pieces()),
        85 => ("ranges at the limit of bytes", around_the_longest(rng)),
        _ => ("damaged ranges", damaged(rng)),
    };
    lent(rng, kind, pieces)
}

/// So many commands: items with ranges and without, good and bad, settlings,
/// withdrawals, counts and switches.
fn ranged(rng: &mut Rng, opening: Opening, sizes: Sizes, len: usize) -> Stream {
    let switches = rng.pick(&[0, 4, 20]);
    let mut making = Making::new(opening);
    while making.len() < len {
        let size = random_size(rng, sizes, opening);
        let command = match rng.between(0, 99) {
            percent if percent < switches => switch(rng),
            0..=41 => range_to(rng, size),
            42..=54 => Shelve(size),
            55..=74 => making.settling(rng),
            75..=86 => Withdraw(making.name(rng)),
            87..=91 => bad_range(rng, opening),
            92..=93 => Shelve(bad_size(rng, opening)),
            _ => Count,
        };
        making.send(command);
    }
    making.stream
}

fn mixed(rng: &mut Rng) -> Stream {
    let opening = random_opening(rng);
    let sizes = random_sizes(rng);
    let len = rng.between(0, 90) as usize;
    ranged(rng, opening, sizes, len)
}

/// A items that are settled small, so that several come to lie on a bin, and that
/// are taken out again one by one; among B2 items, of which some look for a bin
/// with an A.
fn several_a(rng: &mut Rng) -> Stream {
    let (mut opening, b2) = b2_opening(rng);
    opening.stock = rng.pick(&[3, 6, 12, MOST_STOCK]);
    let c = u64::from(opening.capacity);
    let switches = rng.pick(&[0, 0, 5]);
    let mut making = Making::new(opening);
    for _ in 0..rng.between(10, 120) {
        let command = match rng.between(0, 99) {
            percent if percent < switches => switch(rng),
            0..=39 => {
                let size = opening.bare(rng.between(b2.0, b2.1) as u32);
                rng.pick(&[Shelve(size), Shelve(size), Reserve(1, size)])
            }
            40..=62 => {
                let most = rng.pick(&[c, c - b2.0, c / 2 + 1]);
                let size = opening.bare(rng.between(c / 2 + 1, most.max(c / 2 + 1)) as u32);
                rng.pick(&[Shelve(size), Reserve(1, size), Reserve(1, size)])
            }
            63..=80 => settled_small(rng, &making, c),
            81..=91 => Withdraw(one_of_class_1(rng, &making).unwrap_or(0)),
            92..=95 => Withdraw(making.name(rng)),
            _ => making.settling(rng),
        };
        making.send(command);
    }
    making.stream
}

/// Settles an item that waits for it, mostly at a small part of the capacity.
fn settled_small(rng: &mut Rng, making: &Making, capacity: u64) -> Command {
    let name = waiting(rng, making.shelf.current(), true).unwrap_or(0);
    let part = capacity / rng.pick(&[100, 8, 8, 4, 3]) + 1;
    let opening = making.stream.opening;
    Settle(name, opening.bare(rng.between(1, part) as u32))
}

/// The number of an item on a bin of class 1: where one has several A, mostly of
/// one of these.
fn one_of_class_1(rng: &mut Rng, making: &Making) -> Option<u16> {
    let bins = making.shelf.current().bins.iter();
    let first: Vec<&Bin> = bins.filter(|bin| bin.class == 1).collect();
    let several = first.iter().filter(|bin| held_a(bin) > 1);
    let several: Vec<u16> = several.flat_map(|bin| numbers(bin)).collect();
    let all: Vec<u16> = first.iter().flat_map(|bin| numbers(bin)).collect();
    match rng.chance(70) {
        true => pick(rng, &several).or_else(|| pick(rng, &all)),
        false => pick(rng, &all),
    }
}

/// How many A a bin holds.
pub fn held_a(bin: &Bin) -> usize {
    let items = bin.items.iter();
    items.filter(|item| item.class == SizeClass::A).count()
}

/// A stock of few bins: what is refused for want of one often comes again after a
/// settling or two.
fn spent(rng: &mut Rng) -> Stream {
    let mut opening = random_opening(rng);
    opening.stock = rng.between(1, 5) as u16;
    let sizes = random_sizes(rng);
    let mut making = Making::new(opening);
    for _ in 0..rng.between(5, 40) {
        let size = random_size(rng, sizes, opening);
        let command = rng.pick(&[Shelve(size), Reserve(1, size), Reserve(1, size)]);
        if making.send(command) {
            continue;
        }
        for _ in 0..rng.between(0, 3) {
            let settling = making.settling(rng);
            making.send(settling);
        }
        if rng.chance(10) {
            making.send(switch(rng));
        }
        making.send(command);
    }
    making.stream
}

/// A list as it may come without ranges, of either production, where some items or
/// all have one: nothing is settled, so that the figure holds, by the greatest.
fn by_the_greatest(rng: &mut Rng) -> Stream {
    let mut stream = match rng.between(0, 9) {
        0..=4 => short_list(rng),
        5 => family(rng),
        6 => b2_run(rng),
        7 => list(rng, 60),
        _ => two_lists(rng),
    };
    let percent = rng.pick(&[50, 100]);
    for command in &mut stream.commands {
        if let Shelve(size) = *command {
            if rng.chance(percent) {
                *command = range_to(rng, size);
            }
        }
    }
    stream
}

/// As many commands as are allowed: of all kinds, or items with ranges alone, which
/// take the most bytes.
fn long(rng: &mut Rng) -> Stream {
    let mut opening = random_opening(rng);
    opening.stock = rng.pick(&[opening.stock, MOST_STOCK]);
    let sizes = random_sizes(rng);
    if rng.chance(50) {
        return ranged(rng, opening, sizes, MOST_COMMANDS);
    }
    let mut item = || {
        let size = random_size(rng, sizes, opening);
        range_to(rng, size)
    };
    let commands = (0..MOST_COMMANDS).map(|_| item()).collect();
    Stream { opening, commands }
}

/// About as many bytes as are printed at most, and no fault among them.
fn around_the_longest(rng: &mut Rng) -> Vec<Vec<u8>> {
    let opening = random_opening(rng);
    let sizes = random_sizes(rng);
    let bytes = MOST_PRINTED - 3 + rng.place(7);
    let mut pieces = vec![opening.bytes()];
    let mut left = bytes - pieces[0].len();
    while left > 0 {
        let size = random_size(rng, sizes, opening);
        let command = match left {
            9.. => range_to(rng, size),
            _ => Count,
        };
        pieces.push(command.bytes());
        left -= pieces[pieces.len() - 1].len();
    }
    pieces
}

fn damaged(rng: &mut Rng) -> Vec<Vec<u8>> {
    let opening = random_opening(rng);
    let sizes = random_sizes(rng);
    let mut pieces = ranged(rng, opening, sizes, 12).pieces();
    damage(rng, &mut pieces);
    pieces
}
