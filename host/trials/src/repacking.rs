//! Random rows of sizes to repack: good ones of many kinds, and damaged ones.

use crate::answered::RowTrial;
use crate::decreasing::first_fit_decreasing;
use crate::families::{self, Family};
use crate::fewest::SHORT;
use crate::limits::damage;
use crate::lists::{random_opening, random_size, random_sizes};
use crate::paper::MOST_ENTRIES;
use crate::rng::Rng;
use crate::streams::random_length;
use crate::wire::opening;

/// A row of sizes, and all that goes with it.
#[derive(Clone)]
pub struct RepackTrial {
    pub kind: &'static str,
    pub sizes: Vec<u32>,
    pub capacity: u32,
    /// The old count.
    pub old: u32,
    /// The bins of a plan that passes for these sizes, where one is known.
    pub known: Option<u32>,
    /// The length of the lent row.
    pub lent: usize,
    /// What that row and the words around it hold before the call.
    pub fill: u64,
}

pub fn random(rng: &mut Rng) -> RepackTrial {
    let mut trial = match rng.between(0, 99) {
        0..=24 => few(rng),
        25..=44 => any(rng),
        45..=54 => ties(rng),
        55..=66 => cut(rng),
        67..=72 => family(rng),
        73..=79 => sorted(rng),
        80..=84 => eleven_for_nine(rng),
        85 => at_the_limit(rng),
        86..=88 => noise(rng),
        _ => near_three_for_two(rng),
    };
    trial.old = random_old(rng, &trial);
    trial.lent = random_length(rng, trial.sizes.len());
    trial.fill = rng.word();
    if rng.chance(30) {
        trial.known = None;
        for _ in 0..rng.between(1, 3) {
            damage(rng, trial.parts());
        }
    }
    trial
}

/// A row of these sizes, of which a plan with so many bins may be known; the rest is
/// still to be chosen.
fn row(kind: &'static str, sizes: Vec<u32>, capacity: u32, known: Option<u32>) -> RepackTrial {
    RepackTrial {
        kind,
        sizes,
        capacity,
        old: 0,
        known,
        lent: 0,
        fill: 0,
    }
}

/// So many sizes of one way of choosing them.
pub fn sizes(rng: &mut Rng, capacity: u32, len: usize) -> Vec<u32> {
    let chosen = random_sizes(rng);
    let opening = opening(capacity, 1, 6);
    let mut size = || random_size(rng, chosen, opening).clamp(1, capacity);
    (0..len).map(|_| size()).collect()
}

/// Few enough to find the fewest bins.
fn few(rng: &mut Rng) -> RepackTrial {
    let capacity = random_opening(rng).capacity;
    let len = rng.between(0, SHORT as u64) as usize;
    row("few sizes", sizes(rng, capacity, len), capacity, None)
}

fn any(rng: &mut Rng) -> RepackTrial {
    let capacity = random_opening(rng).capacity;
    let most = rng.pick(&[30, 120, 600]);
    let len = rng.between(0, most) as usize;
    row("any sizes", sizes(rng, capacity, len), capacity, None)
}

/// Many of few sizes.
fn ties(rng: &mut Rng) -> RepackTrial {
    let capacity = random_opening(rng).capacity;
    let few = rng.between(1, 4) as usize;
    let few = sizes(rng, capacity, few);
    let len = rng.between(0, 150);
    let sizes = (0..len).map(|_| rng.pick(&few)).collect();
    row("few sizes that come often", sizes, capacity, None)
}

/// Bins that are full, or nearly so, in pieces.
fn cut(rng: &mut Rng) -> RepackTrial {
    let capacity = random_opening(rng).capacity;
    let most = rng.pick(&[4, 20, 100]);
    let bins = rng.between(1, most);
    let pieces = rng.between(1, 6);
    let mut sizes = Vec::new();
    for _ in 0..bins {
        let mut left = capacity - rng.pick(&[0, 0, 0, 1]).min(capacity - 1);
        for _ in 1..rng.between(1, pieces) {
            if left > 1 {
                let piece = rng.between(1, u64::from(left) - 1) as u32;
                sizes.push(piece);
                left -= piece;
            }
        }
        sizes.push(left);
    }
    rng.shuffle(&mut sizes);
    row("cut from full bins", sizes, capacity, Some(bins as u32))
}

/// A list on which the method of the shelf does badly.
fn family(rng: &mut Rng) -> RepackTrial {
    let Family {
        capacity, sizes, k, ..
    } = families::random(rng);
    row("family", sizes, capacity, Some(k))
}

/// The order that it is packed in, the other one, or nearly one of these.
fn sorted(rng: &mut Rng) -> RepackTrial {
    let mut trial = any(rng);
    put_in_order(rng, &mut trial.sizes);
    trial.kind = "falling or rising";
    trial
}

/// Falling or rising, but for two at times.
pub fn put_in_order(rng: &mut Rng, sizes: &mut [u32]) {
    sizes.sort_unstable();
    if rng.chance(60) {
        sizes.reverse();
    }
    if rng.chance(30) && !sizes.is_empty() {
        let (i, j) = (rng.place(sizes.len()), rng.place(sizes.len()));
        sizes.swap(i, j);
    }
}

/// The list for which it needs eleven bins where nine would do, some times over: of
/// each nine, six hold a half, a quarter and less than a quarter, three hold two of a
/// quarter and more and two of less.
fn eleven_for_nine(rng: &mut Rng) -> RepackTrial {
    let most = rng.pick(&[1, 3, 30]);
    let times = rng.between(1, most);
    let more = rng.between(1, 200) as u32;
    let capacity = more * 20 + 4 * rng.between(0, 1000) as u32;
    let quarter = capacity / 4;
    let nine = [
        (2 * quarter + more, 6),
        (quarter + 2 * more, 6),
        (quarter + more, 6),
        (quarter - 2 * more, 12),
    ];
    let nine = nine.map(|(size, of_it)| vec![size; of_it]).concat();
    let mut sizes = nine.repeat(times as usize);
    rng.shuffle(&mut sizes);
    row("eleven for nine", sizes, capacity, Some(9 * times as u32))
}

/// Two sizes of about two fifths and four of about three tenths: it may need three
/// bins where two would do, as bad as it gets.
fn near_three_for_two(rng: &mut Rng) -> RepackTrial {
    let capacity = rng.between(10, 200) as u32;
    let mut near = |tenths: u32| {
        let size = capacity * tenths / 10 + rng.between(0, 2) as u32;
        (size - 1).max(1)
    };
    let mut sizes: Vec<u32> = [4, 4, 3, 3, 3, 3].map(&mut near).to_vec();
    rng.shuffle(&mut sizes);
    row("near three for two", sizes, capacity, None)
}

fn at_the_limit(rng: &mut Rng) -> RepackTrial {
    let capacity = random_opening(rng).capacity;
    row("at the limit", long_row(rng, capacity), capacity, None)
}

/// About as many sizes as are allowed.
pub fn long_row(rng: &mut Rng, capacity: u32) -> Vec<u32> {
    let most = MOST_ENTRIES;
    let len = rng.pick(&[most - 1, most, most, most + 1]);
    match rng.chance(70) {
        true => sizes(rng, capacity, len),
        false => vec![rng.between(1, capacity.into()) as u32; len],
    }
}

/// Any numbers at all.
fn noise(rng: &mut Rng) -> RepackTrial {
    let bits = rng.between(0, 31);
    let mut number = || rng.between(0, 2 << bits) as u32;
    let capacity = number();
    let sizes = (0..number() % 9).map(|_| number()).collect();
    row("any numbers", sizes, capacity, None)
}

/// An old count: often the new one or beside it.
fn random_old(rng: &mut Rng, trial: &RepackTrial) -> u32 {
    let fits = |&size: &u32| size <= trial.capacity;
    let count = match trial.sizes.iter().all(fits) {
        true => first_fit_decreasing(&trial.sizes, trial.capacity).1,
        false => 1,
    };
    match rng.between(0, 9) {
        0..=2 => count,
        3..=4 => count + 1,
        5 => count.saturating_sub(1),
        6 => rng.between(0, 2 * u64::from(count)) as u32,
        7 => rng.pick(&[0, 1, u32::MAX]),
        8 => rng.pick(&[512, 4095, 4096, 4097, 65_535, 65_536]),
        _ => rng.word() as u32,
    }
}
