//! Random plans: good ones of several makers, and damaged ones.

use crate::decreasing::first_fit_decreasing;
use crate::families::{self, Family};
use crate::lists::roomy_opening;
use crate::paper::{self, MOST_ENTRIES};
use crate::rng::Rng;
use crate::wire::{Refusal, Stream, MOST_CAPACITY, MOST_STOCK};

/// The largest k.
const MOST_K: u32 = MOST_ENTRIES as u32;

/// A plan in two rows, and what it is checked against.
#[derive(Clone)]
pub struct PlanTrial {
    pub kind: &'static str,
    pub sizes: Vec<u32>,
    pub bins: Vec<u32>,
    pub items: Vec<u32>,
    pub capacity: u32,
    pub k: u32,
}

pub fn random(rng: &mut Rng) -> PlanTrial {
    let mut trial = match rng.between(0, 99) {
        0..=34 => own_answers(rng),
        35..=69 => decreasing(rng),
        70..=79 => family(rng),
        80..=81 => at_the_limit(rng),
        _ => loose(rng),
    };
    if rng.chance(75) {
        for _ in 0..rng.between(1, 3) {
            damage(rng, &mut trial);
        }
    }
    trial
}

fn passing(
    kind: &'static str,
    items: Vec<u32>,
    bins: Vec<u32>,
    capacity: u32,
    k: u32,
) -> PlanTrial {
    PlanTrial {
        kind,
        sizes: items.clone(),
        bins,
        items,
        capacity,
        k,
    }
}

fn random_capacity(rng: &mut Rng) -> u32 {
    let bits = rng.between(0, 24);
    rng.between(1, 1 << bits) as u32
}

fn random_items(rng: &mut Rng, capacity: u32) -> Vec<u32> {
    let most = (capacity / rng.between(1, 4) as u32).max(1);
    let len = rng.between(0, 30);
    (0..len)
        .map(|_| rng.between(1, most.into()) as u32)
        .collect()
}

/// The answers of the library to a stream, with the accepted sizes as they are
/// stored, in order.
fn own_answers(rng: &mut Rng) -> PlanTrial {
    let mut opening = roomy_opening(rng, 1);
    opening.stock = rng.pick(&[1, 2, 5, 20, MOST_STOCK]);
    let capacity = opening.capacity;
    let sent = random_items(rng, capacity);
    let stream = Stream::of_stored(opening, &sent);
    let mut words = vec![0; sent.len()];
    let mut free = vec![0; sent.len()];
    let shelved = shelf::shelve(&stream.bytes(), &mut words, &mut free);
    let totals = shelved.expect("a well-formed stream");
    let (items, bins) = stream.placed(&words, 0).into_iter().unzip();
    passing("own answers", items, bins, capacity, totals.opened.into())
}

fn decreasing(rng: &mut Rng) -> PlanTrial {
    let capacity = random_capacity(rng);
    let items = random_items(rng, capacity);
    let (bins, k) = first_fit_decreasing(&items, capacity);
    passing("first-fit decreasing", items, bins, capacity, k)
}

fn family(rng: &mut Rng) -> PlanTrial {
    let Family {
        capacity,
        sizes,
        bins,
        k,
        ..
    } = families::random(rng);
    passing("family", sizes, bins, capacity, k)
}

/// As many entries, bins or both as are allowed.
fn at_the_limit(rng: &mut Rng) -> PlanTrial {
    let each = rng.between(1, 6) as u32;
    let items = vec![1; MOST_ENTRIES];
    let bins = (0..MOST_K).map(|i| i / each + 1).collect();
    passing("at the limit", items, bins, each, MOST_K)
}

/// Any bins from 1 to k: often overfull.
fn loose(rng: &mut Rng) -> PlanTrial {
    let capacity = random_capacity(rng);
    let items = random_items(rng, capacity);
    let k = rng.between(1, 2 + items.len() as u64) as u32;
    let bins = items
        .iter()
        .map(|_| rng.between(1, k.into()) as u32)
        .collect();
    passing("any bins", items, bins, capacity, k)
}

fn damage(rng: &mut Rng, trial: &mut PlanTrial) {
    let PlanTrial {
        sizes,
        bins,
        items,
        capacity,
        k,
        ..
    } = trial;
    let len = sizes.len().min(bins.len()).min(items.len());
    let i = rng.place(len.max(1));
    let j = rng.place(len.max(1));
    let whole = len > 0;
    match rng.between(0, 16) {
        0 if whole => sizes[i] = rng.pick(&[0, sizes[i] + 1, sizes[i] - sizes[i].min(1), u32::MAX]),
        1 if whole => items.swap(i, j),
        2..=3 if whole => {
            let size = rng.pick(&[0, capacity.saturating_add(1), u32::MAX]);
            sizes[i] = size;
            items[i] = size;
        }
        4..=5 if whole => bins[i] = rng.pick(&[0, k.saturating_add(1), MOST_K + 1, u32::MAX]),
        6..=7 if whole => bins[i] = bins[j],
        8 => {
            items.pop();
        }
        9 => items.push(rng.pick(&[0, 1, *capacity])),
        10 => {
            // The longer row's last place is not part of the plan.
            if rng.chance(50) {
                sizes.pop();
            } else {
                bins.pop();
            }
        }
        11 => {
            if rng.chance(50) {
                sizes.push(1);
            } else {
                bins.push(1);
            }
        }
        12 => {
            *k = rng.pick(&[
                0,
                k.saturating_sub(1),
                k.saturating_add(1),
                k.saturating_add(7),
            ])
        }
        13 => *k = rng.pick(&[MOST_K - 1, MOST_K, MOST_K + 1, u32::MAX]),
        14 => *capacity = rng.pick(&[0, 1, MOST_CAPACITY, MOST_CAPACITY + 1, u32::MAX]),
        15 => *capacity = rng.pick(&[capacity.saturating_sub(1), *capacity / 2]),
        16 if rng.chance(20) => {
            for row in [sizes, bins, items] {
                if rng.chance(70) {
                    let most = MOST_ENTRIES;
                    row.resize(rng.pick(&[most - 1, most, most + 1, 5000]), 1);
                }
            }
        }
        _ => {}
    }
}

impl PlanTrial {
    /// The plan's entries: the places that both rows have.
    pub fn entries(&self) -> Vec<(u32, u32)> {
        let bins = self.bins.iter().copied();
        self.sizes.iter().copied().zip(bins).collect()
    }

    pub fn by_paper(&self) -> Result<(), Refusal> {
        paper::check_plan(&self.entries(), &self.items, self.capacity, self.k)
    }
}
