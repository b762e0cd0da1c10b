//! Random streams of two productions: that switch often, that spend the stock
//! from either side, and that name what is the other's.

use crate::lists::{b2_opening, b2_run, bad_size, family, list, mixed, short_list};
use crate::lists::{random_opening, random_size, random_sizes, Sizes};
use crate::making::Making;
use crate::rng::Rng;
use crate::streams::{damage, lent, odd_switch, StreamTrial};
use crate::wire::Command::{self, Count, Shelve, Switch, Withdraw};
use crate::wire::{Opening, Stream, MOST_COMMANDS, MOST_STOCK, PRODUCTIONS};

pub fn random(rng: &mut Rng) -> StreamTrial {
    let (kind, pieces) = match rng.between(0, 99) {
        0..=29 => ("productions", of_both(rng).pieces()),
        30..=47 => ("a stock spent from either side", spent(rng).pieces()),
        48..=62 => ("B2 in either production", b2_of_both(rng).pieces()),
        63..=78 => ("two lists in turns", two_lists(rng).pieces()),
        79..=82 => ("pages of either production", pages(rng).pieces()),
        83..=85 => ("4,096 commands of both productions", long(rng).pieces()),
        _ => ("damaged productions", damaged(rng)),
    };
    lent(rng, kind, pieces)
}

/// A switch to either production, also to the one that is current.
pub fn switch(rng: &mut Rng) -> Command {
    Switch(rng.pick(&[0, 1]))
}

/// So many commands: switches, few or many, items, good and bad, withdrawals and
/// counts.
fn switching(rng: &mut Rng, opening: Opening, sizes: Sizes, len: usize) -> Stream {
    let switches = rng.pick(&[3, 15, 40]);
    let mut making = Making::new(opening);
    while making.len() < len {
        let command = match rng.between(0, 99) {
            percent if percent < switches => switch(rng),
            0..=64 => Shelve(random_size(rng, sizes, opening)),
            65..=69 => Shelve(bad_size(rng, opening)),
            70..=79 => Count,
            _ => Withdraw(making.name(rng)),
        };
        making.send(command);
    }
    making.stream
}

fn of_both(rng: &mut Rng) -> Stream {
    let opening = random_opening(rng);
    let sizes = random_sizes(rng);
    let len = rng.between(0, 90) as usize;
    switching(rng, opening, sizes, len)
}

/// As many commands as are allowed, mostly over the largest stock.
fn long(rng: &mut Rng) -> Stream {
    let mut opening = random_opening(rng);
    if rng.chance(70) {
        opening.stock = MOST_STOCK;
    }
    let sizes = random_sizes(rng);
    switching(rng, opening, sizes, MOST_COMMANDS)
}

/// A stock of few bins. What is refused for want of one comes again, in the
/// other production or after a bin of either is emptied.
fn spent(rng: &mut Rng) -> Stream {
    let mut opening = random_opening(rng);
    opening.stock = rng.between(1, 9) as u16;
    let sizes = rng.pick(&[Sizes::Classes, Sizes::Classes, Sizes::Edges, Sizes::Uniform]);
    let mut making = Making::new(opening);
    for _ in 0..rng.between(5, 40) {
        if rng.chance(40) {
            making.send(switch(rng));
        }
        let size = random_size(rng, sizes, opening);
        if making.send(Shelve(size)) {
            continue;
        }
        if rng.chance(50) {
            making.empty_one(rng);
        }
        if rng.chance(50) {
            making.send(switch(rng));
        }
        making.send(Shelve(size));
        making.send(Count);
    }
    making.stream
}

/// B2 items and a few A that switch after one to three of them, so that a count
/// of both is another than that of each.
fn b2_of_both(rng: &mut Rng) -> Stream {
    let (mut opening, b2) = b2_opening(rng);
    opening.stock = rng.pick(&[3, 8, 16, MOST_STOCK]);
    let c = u64::from(opening.capacity);
    let mut making = Making::new(opening);
    for _ in 0..rng.between(5, 40) {
        for _ in 0..rng.between(1, 3) {
            let stored = match rng.between(0, 9) {
                0..=7 => rng.between(b2.0, b2.1),
                _ => rng.between(c / 2 + 1, c - b2.0),
            };
            making.send(Shelve(opening.bare(stored as u32)));
        }
        if rng.chance(15) {
            let name = making.name(rng);
            making.send(Withdraw(name));
        }
        making.send(switch(rng));
    }
    making.stream
}

/// A list in one production, and the same, the same in another order or another
/// list in the other: short ones, whose fewest bins can be found, and those that
/// do badly among them.
pub fn two_lists(rng: &mut Rng) -> Stream {
    let Stream { opening, commands } = match rng.between(0, 9) {
        0..=4 => short_list(rng),
        5..=6 => family(rng),
        7 => b2_run(rng),
        _ => list(rng, 40),
    };
    let other = match rng.between(0, 2) {
        0 => commands.clone(),
        1 => {
            let mut shuffled = commands.clone();
            rng.shuffle(&mut shuffled);
            shuffled
        }
        _ => {
            let sizes = random_sizes(rng);
            let len = rng.place(14);
            mixed(rng, opening, sizes, len).commands
        }
    };
    let mut lists = [commands, other];
    if rng.chance(50) {
        lists.swap(0, 1);
    }
    in_turns(rng, opening, lists)
}

/// One list in each production, each in its order.
fn in_turns(rng: &mut Rng, opening: Opening, lists: [Vec<Command>; PRODUCTIONS]) -> Stream {
    let stays = rng.pick(&[0, 50, 90]);
    let mut lists = lists.map(|list| list.into_iter().peekable());
    let mut commands = Vec::new();
    let mut current = 0;
    while lists.iter_mut().any(|list| list.peek().is_some()) {
        if lists[current].peek().is_none() || !rng.chance(stays) {
            current = 1 - current;
            commands.push(Switch(current as u8));
        }
        commands.extend(lists[current].next());
    }
    Stream { opening, commands }
}

/// As many bins in either production as fill a page, or nearly, or none.
fn pages(rng: &mut Rng) -> Stream {
    let mut opening = random_opening(rng);
    opening.stock = MOST_STOCK;
    let full = Shelve(opening.bare(opening.capacity));
    let mut bins = || rng.pick(&[0, 0, 1, 49, 50, 51, 100, 101, 200, 411, 412]);
    let lists = [bins(), bins()].map(|bins| vec![full; bins]);
    in_turns(rng, opening, lists)
}

/// Also with a switch to what is mostly no production, or cut short.
fn damaged(rng: &mut Rng) -> Vec<Vec<u8>> {
    let opening = random_opening(rng);
    let sizes = random_sizes(rng);
    let mut pieces = switching(rng, opening, sizes, 12).pieces();
    for _ in 0..rng.between(0, 2) {
        let place = rng.between(1, pieces.len() as u64) as usize;
        pieces.insert(place, odd_switch(rng).bytes());
    }
    if rng.chance(50) {
        damage(rng, &mut pieces);
    }
    pieces
}
