//! Random streams without a fault: plain lists of items, and adversarial ones.

use crate::families::{self, Family};
use crate::rng::Rng;
use crate::wire::Command::{self, Count, Reserve, Shelve};
use crate::wire::{opening, Opening, Stream};
use crate::wire::{LEAST_M, MOST_CAPACITY, MOST_COMMANDS, MOST_M, MOST_STOCK};

fn random_m(rng: &mut Rng) -> u8 {
    rng.between(LEAST_M.into(), MOST_M.into()) as u8
}

pub fn random_opening(rng: &mut Rng) -> Opening {
    let capacity = match rng.between(0, 9) {
        0..=2 => rng.between(1, 30),
        3..=4 => rng.between(1, 200),
        5 => 60 * rng.between(1, 50),
        6 => u64::from(MOST_CAPACITY) - rng.pick(&[2, 1, 0]),
        _ => {
            let bits = rng.between(1, 24);
            rng.between(1, 1 << bits)
        }
    };
    let most = u64::from(MOST_STOCK);
    let stock = match rng.between(0, 7) {
        0 => rng.pick(&[1, 2]),
        1..=2 => rng.between(1, 20),
        3 => rng.pick(&[most - 1, most]),
        4 => rng.between(1, most),
        5 => 1 << rng.between(0, 9),
        _ => most,
    };
    let opening = opening(capacity as u32, stock as u16, random_m(rng));
    Opening {
        trailer: random_trailer(rng, opening.capacity),
        ..opening
    }
}

/// None, for an opening by 01, or one of those that are odd beside this
/// capacity; or one with which most sizes are still within it.
fn random_trailer(rng: &mut Rng, capacity: u32) -> Option<u16> {
    let trailer = match rng.between(0, 29) {
        0..=11 => return None,
        12..=13 => 0,
        14..=16 => 1,
        17..=18 => u64::from(capacity) - 1 + rng.between(0, 2),
        19 => u16::MAX.into(),
        20 => rng.between(0, u16::MAX.into()),
        _ => return Some(small_trailer(rng, capacity)),
    };
    Some(u16::try_from(trailer).unwrap_or(u16::MAX))
}

/// One with which most sizes are within the capacity.
fn small_trailer(rng: &mut Rng, capacity: u32) -> u16 {
    let most = (capacity / 12 + 1).min(u16::MAX.into());
    rng.between(0, most.into()) as u16
}

/// The largest with which items can still be stored by these sizes.
pub fn most_trailer(stored: &[u32]) -> u16 {
    let least = stored.iter().copied().filter(|&size| size > 0).min();
    least.map_or(0, |least| (least - 1).min(u16::MAX.into()) as u16)
}

/// An opening by either command, where most sizes are within the capacity with
/// their trailer, and the capacity is as large as this at least.
pub fn roomy_opening(rng: &mut Rng, least: u32) -> Opening {
    let mut opening = random_opening(rng);
    opening.capacity = opening.capacity.max(least);
    let trailer = small_trailer(rng, opening.capacity);
    opening.trailer = opening.trailer.map(|_| trailer);
    opening
}

/// An opening for B2 items, with the least and the most that these are stored
/// by.
pub fn b2_opening(rng: &mut Rng) -> (Opening, (u64, u64)) {
    let opening = roomy_opening(rng, 12);
    let c = u64::from(opening.capacity);
    (opening, (c / 3 + 1, (2 * c / 5).max(c / 3 + 1)))
}

/// How the stored sizes of one stream are chosen.
#[derive(Clone, Copy)]
pub enum Sizes {
    Uniform,
    /// At and beside the fractions where classes and fits change.
    Edges,
    /// A class, then a size of it.
    Classes,
    /// Fractions that leave little free.
    Parts,
    Small,
    /// None that a bin can hold.
    Bad,
}

pub fn random_sizes(rng: &mut Rng) -> Sizes {
    use Sizes::*;
    rng.pick(&[Uniform, Edges, Edges, Classes, Classes, Parts, Small])
}

pub fn random_size(rng: &mut Rng, sizes: Sizes, opening: Opening) -> u32 {
    let c = u64::from(opening.capacity);
    let stored = match sizes {
        Sizes::Uniform => rng.between(1, c),
        Sizes::Edges => {
            let (p, q) = rng.pick(&[
                (1, 3),
                (1, 3),
                (2, 5),
                (2, 5),
                (1, 2),
                (1, 2),
                (2, 3),
                (3, 5),
            ]);
            (c * p / q + rng.between(0, 2)).saturating_sub(1)
        }
        Sizes::Classes => {
            let (least, most) = rng.pick(&[
                (c / 2 + 1, c),
                (2 * c / 5 + 1, c / 2),
                (c / 3 + 1, 2 * c / 5),
                (1, c / 3),
            ]);
            // In a small capacity a class can be empty.
            rng.between(least.min(most).max(1), most.max(1))
        }
        Sizes::Parts => {
            let q = rng.between(2, 7);
            (c / q + rng.between(0, 4)).saturating_sub(2)
        }
        Sizes::Small => rng.between(1, c / 8 + 1),
        Sizes::Bad => return bad_size(rng, opening),
    };
    opening.bare(stored as u32)
}

pub fn bad_size(rng: &mut Rng, opening: Opening) -> u32 {
    let above = u64::from(opening.capacity) + 1;
    let least: u64 = opening.bare(above as u32).into();
    let size = match rng.between(0, 9) {
        0..=2 => 0,
        // Too large by one with the trailer, or for the trailer alone.
        3..=4 => least,
        5 => rng.between(least, above),
        6 => u32::MAX.into(),
        // Most of these would be small again if a sum had no more than 32 bits.
        7 => u64::from(u32::MAX) - rng.between(0, opening.stored(0)),
        _ => rng.between(above, u32::MAX.into()),
    };
    size as u32
}

/// An item that is of this size at the greatest.
pub fn range_to(rng: &mut Rng, greatest: u32) -> Command {
    let least = match rng.between(0, 5) {
        0 => 1,
        1 => greatest,
        2 => greatest.saturating_sub(1),
        3 => greatest / 2,
        _ => rng.between(1, greatest.max(1).into()) as u32,
    };
    Reserve(least.max(1), greatest)
}

/// An item of a range that is wrong, or too large.
pub fn bad_range(rng: &mut Rng, opening: Opening) -> Command {
    let size = bad_size(rng, opening);
    let good = opening.bare(rng.between(1, opening.capacity.into()) as u32);
    match rng.between(0, 9) {
        0 => Reserve(0, good),
        1 => Reserve(good + 1, good),
        2 => Reserve(size.max(good), good - 1),
        3 => Reserve(size, 0),
        4 => Reserve(0, size),
        5 => Reserve(size, size),
        6 => Reserve(size, size.saturating_sub(1)),
        _ => range_to(rng, size),
    }
}

/// So many commands: items, good and bad, and counts.
pub fn mixed(rng: &mut Rng, opening: Opening, sizes: Sizes, len: usize) -> Stream {
    let mut command = || match rng.between(0, 99) {
        0..=5 => Count,
        6..=10 => Shelve(bad_size(rng, opening)),
        _ => Shelve(random_size(rng, sizes, opening)),
    };
    let commands = (0..len).map(|_| command()).collect();
    Stream { opening, commands }
}

pub fn list(rng: &mut Rng, longest: u64) -> Stream {
    let opening = random_opening(rng);
    let sizes = random_sizes(rng);
    let len = rng.between(0, longest) as usize;
    mixed(rng, opening, sizes, len)
}

/// Short enough to find the fewest bins; often a list that fills some bins and
/// comes in the order that serves the method worst, smallest first.
pub fn short_list(rng: &mut Rng) -> Stream {
    if rng.chance(50) {
        return list(rng, 13);
    }
    let opening = random_opening(rng);
    let capacity = opening.capacity;
    let mut sizes = Vec::new();
    for _ in 0..rng.between(1, 4) {
        let a = capacity / 2 + 1;
        let rest = capacity - a.min(capacity);
        let part = match rng.between(0, 3) {
            0 => 2 * capacity / 5 + 1,
            1 => capacity / 3 + 1,
            2 => rest / 2,
            _ => rng.between(0, rest.into()) as u32,
        };
        sizes.extend([a, part.min(rest), rest.saturating_sub(part)]);
    }
    if rng.chance(60) {
        sizes.sort_unstable();
    } else {
        rng.shuffle(&mut sizes);
    }
    Stream::of_stored(opening, &sizes)
}

/// B2 items and a few A over a stock that runs out, so that some m-th B2 find
/// an A, some open a bin, and some are refused and come again.
pub fn b2_run(rng: &mut Rng) -> Stream {
    let (mut opening, b2) = b2_opening(rng);
    opening.stock = rng.between(1, 12) as u16;
    let c = u64::from(opening.capacity);
    let mut commands = Vec::new();
    for _ in 0..rng.between(6, 70) {
        let stored = match rng.between(0, 18) {
            0..=13 => rng.between(b2.0, b2.1),
            14..=15 => rng.between(c / 2 + 1, c - b2.0),
            16 => c - b2.1 + rng.between(0, 1),
            17 => rng.between(c / 2 + 1, c),
            _ => rng.between(1, c / 3),
        };
        commands.push(Shelve(opening.bare(stored as u32)));
        if rng.chance(5) {
            commands.push(Shelve(bad_size(rng, opening)));
        }
        if rng.chance(4) {
            commands.push(Count);
        }
    }
    Stream { opening, commands }
}

/// A count after every command, as panels send them, or before it: with nothing
/// opened, over a small stock that is often spent, over any stock, and as many
/// commands as are allowed.
pub fn counted(rng: &mut Rng) -> Stream {
    let mut opening = random_opening(rng);
    let (sizes, len) = match rng.between(0, 9) {
        0..=1 => (Sizes::Bad, rng.place(5)),
        2..=6 => {
            opening.stock = rng.between(1, 8) as u16;
            (random_sizes(rng), rng.place(40))
        }
        7..=8 => (random_sizes(rng), rng.place(100)),
        _ => (random_sizes(rng), MOST_COMMANDS / 2),
    };
    let mut stream = mixed(rng, opening, sizes, len);
    let after = rng.chance(50);
    let counted = |command| match after {
        true => [command, Count],
        false => [Count, command],
    };
    stream.commands = stream.commands.into_iter().flat_map(counted).collect();
    stream
}

/// One of the families, as it is or nearly so.
pub fn family(rng: &mut Rng) -> Stream {
    let Family {
        capacity,
        mut sizes,
        opened,
        ..
    } = families::random(rng);
    match rng.between(0, 3) {
        0 => {
            for _ in 0..rng.between(1, 3) {
                let i = rng.place(sizes.len());
                sizes[i] = sizes[i] + 1 - rng.pick(&[0, 2]);
            }
        }
        1 => {
            let i = rng.place(sizes.len());
            let j = rng.place(sizes.len());
            sizes.swap(i, j);
        }
        _ => {}
    }
    let most = MOST_STOCK.into();
    let stock = rng.pick(&[most, most, opened, opened - 1]) as u16;
    let mut opening = opening(capacity, stock, random_m(rng));
    if rng.chance(50) {
        let trailer = rng.between(0, most_trailer(&sizes).into());
        opening = opening.with_trailer(trailer as u16);
    }
    let mut commands = Vec::new();
    for size in sizes {
        if rng.chance(3) {
            commands.push(Count);
        }
        if rng.chance(3) {
            commands.push(Shelve(bad_size(rng, opening)));
        }
        commands.push(Shelve(opening.bare(size)));
    }
    Stream { opening, commands }
}

/// Exactly as many commands as are allowed, sometimes with every item accepted.
pub fn long(rng: &mut Rng) -> Stream {
    if rng.chance(30) {
        let mut opening = roomy_opening(rng, 100);
        opening.stock = MOST_STOCK;
        let most = u64::from(opening.capacity) / 10;
        let size = |_| rng.between(1, most) as u32;
        let sizes: Vec<u32> = (0..MOST_COMMANDS).map(size).collect();
        return Stream::of_stored(opening, &sizes);
    }
    let opening = random_opening(rng);
    let sizes = random_sizes(rng);
    mixed(rng, opening, sizes, MOST_COMMANDS)
}
