//! Lists on which the method does badly, each with a plan that does well.

use crate::rng::Rng;
use crate::wire::MOST_STOCK;

/// A list with a plan for it.
pub struct Family {
    pub capacity: u32,
    pub sizes: Vec<u32>,
    /// The plan: each item's bin.
    pub bins: Vec<u32>,
    /// The bins of the plan.
    pub k: u32,
    /// The bins that the method opens for the list.
    pub opened: u32,
}

/// Any one of them.
pub fn random(rng: &mut Rng) -> Family {
    match rng.between(0, 2) {
        0 => theorem_1_by_quarters(rng.pick(&[3, 5, 7, 9])),
        1 => theorem_1_slowly(rng.pick(&[7, 13, 19, 25])),
        _ => tight(rng.between(1, TIGHT_MOST.into()) as u32),
    }
}

/// The list of Yao's Theorem 1 for `n = delta.len()`, an odd number, where
/// `delta[j - 1]` is the paper's δ_j in units. It fills `n` bins exactly, as
/// (p_j, u_j, t_j). If each triple of its first part shuts out what follows
/// and `n` is 6i + 1, the method opens `5(n - 1)/3 + 2`.
fn theorem_1(capacity: u32, delta: &[u32]) -> Family {
    let n = delta.len();
    let mut list: Vec<(u32, usize)> = Vec::new();
    let p = |j: usize| (capacity / 2 + delta[j - 1], j);
    let u = |j: usize| (capacity / 4 + delta[j - 1], j);
    let t = |j: usize| (capacity / 4 - 2 * delta[j - 1], j);
    for j in (1..n).step_by(2) {
        list.extend([u(j), t(j + 1), t(j + 2)]);
    }
    list.extend((2..n).step_by(2).map(u));
    list.extend((1..=n).map(p));
    list.extend([t(1), u(n)]);
    Family {
        capacity,
        sizes: list.iter().map(|&(size, _)| size).collect(),
        bins: list.iter().map(|&(_, j)| j as u32).collect(),
        k: n as u32,
        opened: (5 * (n as u32 - 1)) / 3 + 2,
    }
}

/// The paper's own δ, a quarter of the one before. Fits the largest capacity up
/// to n = 10, so 7 is the one n of the paper's form.
pub fn theorem_1_by_quarters(n: usize) -> Family {
    let delta: Vec<u32> = (1..=n).map(|j| 4u32.pow((n - j) as u32)).collect();
    theorem_1(1 << (2 * n + 4), &delta)
}

/// The slowest growth of δ that still shuts out what follows: even δ are 1,
/// odd δ as large as need be. Reaches n = 25.
pub fn theorem_1_slowly(n: usize) -> Family {
    let mut delta = vec![1u32; n];
    for j in (1..n - 1).rev().step_by(2) {
        // A triple is u of δ_j, t of the next two; then comes any later t.
        let later = delta[j + 2..].iter().max().unwrap_or(&1);
        delta[j - 1] = 2 * (delta[j] + delta[j + 1] + later) + 1;
    }
    // u_1 must stay an X item.
    let capacity = (delta[0] * 12).next_power_of_two().max(64);
    theorem_1(capacity, &delta)
}

/// The largest `k` of [`tight`]: with more the stock could be no worse.
pub const TIGHT_MOST: u32 = MOST_STOCK as u32;

/// A list for which the method opens as many bins as it ever does where `k` are
/// the fewest: (5k + 5) / 3, rounded down, or the stock. It has `k` items above a
/// half, so no plan has fewer bins.
pub fn tight(k: u32) -> Family {
    let opened = ((5 * k + 5) / 3).min(MOST_STOCK.into());
    // Beyond 306 a shorter list, and then items above a half, each in its own bin.
    let shorter = shorter(k, opened - k);
    let (capacity, mut list) = match shorter {
        0 => (60, vec![(21, 1); (opened - k) as usize]),
        1 => (60, vec![(31, 1), (21, 1), (8, 1)]),
        2 => (11, vec![(6, 1), (5, 1), (6, 2), (4, 2), (1, 2)]),
        _ => with_near_quarters(shorter),
    };
    list.extend((shorter + 1..=k).map(|bin| (capacity / 2 + 1, bin)));
    let (sizes, bins) = list.into_iter().unzip();
    Family {
        capacity,
        sizes,
        bins,
        k,
        opened,
    }
}

/// The most bins, up to `k`, for which a list of its own opens no more than so
/// many besides: (2j + 5) / 3, rounded down, for j of them.
fn shorter(k: u32, besides: u32) -> u32 {
    (1..=k)
        .rev()
        .find(|j| (2 * j + 5) / 3 <= besides)
        .unwrap_or(0)
}

/// [`tight`] from 3 on: the capacity, and the sizes with their bins in the plan.
///
/// In the plan every bin has an item just above a half. Two of them take a B1
/// and a B2 beside it, each with a small item; each of the rest takes a pair
/// near a quarter. The method puts the near-quarters three to a bin, the excess
/// of each bin shutting out all that come later, and has no B1 or B2 beside an
/// A.
fn with_near_quarters(k: u32) -> (u32, Vec<(u32, u32)>) {
    const QUARTER: i64 = 250_000;
    const CAPACITY: i64 = 4 * QUARTER + 1;
    const A: i64 = CAPACITY / 2 + 1;
    const B1: i64 = 2 * CAPACITY / 5 + 1;
    const B2: i64 = CAPACITY / 3 + 1;

    let mut list = vec![(CAPACITY - A - B1, 1), (CAPACITY - A - B2, 2)];
    let near = distances(k as usize - 2);
    let bins = pair_up(&near);
    list.extend(near.iter().map(|d| QUARTER + d).zip(bins));
    list.extend([(B1, 1), (B2, 2)]);
    list.extend((1..=k).map(|bin| (A, bin)));
    let list = list.into_iter().map(|(size, bin)| (size as u32, bin));
    (CAPACITY as u32, list.collect())
}

/// The distances from a quarter of so many pairs, in the order of sending: those
/// below it in levels, each farther from it than what the next one leaves free.
/// A level has twice as many as the one before, so that few levels are needed.
fn distances(pairs: usize) -> Vec<i64> {
    if pairs == 1 {
        return vec![-1, 1];
    }
    let mut levels = Vec::new();
    let mut left = pairs - 2;
    let mut most = 4;
    while left > 1 {
        let count = most.min(left - left % 2);
        levels.push(count);
        left -= count;
        most = 2 * count;
    }
    let below = |level: usize| 2 * 3i64.pow((levels.len() - level) as u32) - 1;
    let mut near = vec![-below(0); 2];
    let mut above = 0;
    for (level, count) in (1..).zip(&levels) {
        for _ in 0..count / 2 {
            near.extend([below(level - 1), -below(level), -below(level)]);
            above += 1;
        }
    }
    near.extend(std::iter::repeat_n(-1, left));
    near.extend(std::iter::repeat_n(1, pairs - above));
    near
}

/// Bins from 3 up, one for each pair: the farthest above with the farthest below.
fn pair_up(near: &[i64]) -> Vec<u32> {
    let mut bins = vec![0; near.len()];
    for below in [true, false] {
        let mut side: Vec<usize> = (0..near.len())
            .filter(|&i| (near[i] < 0) == below)
            .collect();
        side.sort_by_key(|&i| -near[i].abs());
        for (bin, i) in (3..).zip(side) {
            bins[i] = bin;
        }
    }
    bins
}
