//! Random rows of pictures and sounds to pair: good ones of many kinds, and damaged
//! ones.

use crate::answered::RowTrial;
use crate::limits::damage;
use crate::lists::random_opening;
use crate::matching::SHORT;
use crate::paper::MOST_ENTRIES;
use crate::repacking::{long_row, put_in_order, sizes};
use crate::rng::Rng;
use crate::streams::random_length;

/// Two rows of sizes, and all that goes with them.
#[derive(Clone)]
pub struct PairTrial {
    pub kind: &'static str,
    pub pictures: Vec<u32>,
    pub sounds: Vec<u32>,
    pub capacity: u32,
    /// The length of the lent row.
    pub lent: usize,
    /// What that row and the words around it hold before the call.
    pub fill: u64,
}

pub fn random(rng: &mut Rng) -> PairTrial {
    let capacity = random_opening(rng).capacity;
    let mut trial = match rng.between(0, 99) {
        0..=24 => few(rng, capacity),
        25..=39 => any(rng, capacity),
        40..=54 => ties(rng, capacity),
        55..=71 => complements(rng, capacity),
        72..=76 => sorted(rng, capacity),
        77..=81 => all_fit(rng, capacity),
        82..=86 => none_fits(rng, capacity),
        87..=92 => lopsided(rng, capacity),
        93..=95 => empty(rng, capacity),
        96 => at_the_limit(rng, capacity),
        _ => noise(rng),
    };
    trial.lent = random_length(rng, trial.pictures.len());
    trial.fill = rng.word();
    if rng.chance(30) {
        for _ in 0..rng.between(1, 3) {
            damage(rng, trial.parts());
        }
    }
    trial
}

/// These rows; the rest is still to be chosen.
fn rows(kind: &'static str, [pictures, sounds]: [Vec<u32>; 2], capacity: u32) -> PairTrial {
    PairTrial {
        kind,
        pictures,
        sounds,
        capacity,
        lent: 0,
        fill: 0,
    }
}

/// Any sizes, so many at the most.
fn up_to(rng: &mut Rng, most: u64, capacity: u32) -> Vec<u32> {
    let len = rng.between(0, most) as usize;
    sizes(rng, capacity, len)
}

/// Few enough to try every way of pairing them.
fn few(rng: &mut Rng, capacity: u32) -> PairTrial {
    let both = [(); 2].map(|()| up_to(rng, SHORT as u64, capacity));
    rows("few sizes", both, capacity)
}

fn any(rng: &mut Rng, capacity: u32) -> PairTrial {
    let both = [(); 2].map(|()| {
        let most = rng.pick(&[30, 120, 400]);
        up_to(rng, most, capacity)
    });
    rows("any sizes", both, capacity)
}

/// Many of few sizes, the same in both rows or with what they leave of the capacity.
fn ties(rng: &mut Rng, capacity: u32) -> PairTrial {
    let len = rng.between(1, 4) as usize;
    let few = sizes(rng, capacity, len);
    let left = few.iter().map(|size| (capacity - size).max(1));
    let beside = match rng.chance(50) {
        true => few.clone(),
        false => left.collect(),
    };
    let both = [few, beside].map(|few| {
        let len = rng.between(0, 60);
        (0..len).map(|_| rng.pick(&few)).collect()
    });
    rows("few sizes that come often", both, capacity)
}

/// Each picture with a sound that fills the capacity up, or is one unit off; a few are
/// left out.
fn complements(rng: &mut Rng, capacity: u32) -> PairTrial {
    let most = rng.pick(&[6, 30, 300]);
    let mut pictures = up_to(rng, most, capacity);
    let mut beside = |&picture: &u32| {
        let sound = capacity - picture + rng.pick(&[0, 1, 1, 2]);
        sound.saturating_sub(1).clamp(1, capacity)
    };
    let mut sounds: Vec<u32> = pictures.iter().map(&mut beside).collect();
    for row in [&mut pictures, &mut sounds] {
        rng.shuffle(row);
        if rng.chance(40) {
            row.truncate(row.len() - row.len().min(rng.place(4)));
        }
    }
    rows("around the capacity", [pictures, sounds], capacity)
}

fn sorted(rng: &mut Rng, capacity: u32) -> PairTrial {
    let mut trial = any(rng, capacity);
    for row in trial.parts().rows {
        put_in_order(rng, row);
    }
    trial.kind = "falling or rising";
    trial
}

/// No size is above the half.
fn all_fit(rng: &mut Rng, capacity: u32) -> PairTrial {
    let half = capacity.div_ceil(2);
    let both = [(); 2].map(|()| up_to(rng, 60, half));
    rows("all fit", both, 2 * half)
}

/// Together all are above the capacity, some by one unit.
fn none_fits(rng: &mut Rng, capacity: u32) -> PairTrial {
    let least = rng.between(1, capacity.into()) as u32;
    let both = [least, capacity + 1 - least].map(|least| {
        let mut row = up_to(rng, 60, capacity);
        row.iter_mut().for_each(|size| *size = (*size).max(least));
        row
    });
    rows("none fits", both, capacity)
}

/// One row is much longer than the other.
fn lopsided(rng: &mut Rng, capacity: u32) -> PairTrial {
    let most = rng.pick(&[40, 300, 300, MOST_ENTRIES as u64]);
    let mut both = [4, most].map(|most| up_to(rng, most, capacity));
    rng.shuffle(&mut both);
    rows("one row much longer", both, capacity)
}

/// One row is empty, or both are.
fn empty(rng: &mut Rng, capacity: u32) -> PairTrial {
    let most = rng.pick(&[0, 9, 100]);
    let mut both = [0, most].map(|most| up_to(rng, most, capacity));
    rng.shuffle(&mut both);
    rows("an empty row", both, capacity)
}

/// About as many sizes as are allowed, in one row or both.
fn at_the_limit(rng: &mut Rng, capacity: u32) -> PairTrial {
    let mut both = [true, rng.chance(70)].map(|long| match long {
        true => long_row(rng, capacity),
        false => up_to(rng, 200, capacity),
    });
    rng.shuffle(&mut both);
    rows("at the limit", both, capacity)
}

/// Any numbers at all.
fn noise(rng: &mut Rng) -> PairTrial {
    let bits = rng.between(0, 31);
    let mut number = || rng.between(0, 2 << bits) as u32;
    let capacity = number();
    let both = [(); 2].map(|()| (0..number() % 9).map(|_| number()).collect());
    rows("any numbers", both, capacity)
}
