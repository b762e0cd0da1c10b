//! Repacking in plain Rust, written from the paper alone and sharing nothing with
//! the library or its wrapper: the standard library's sort, and then a scan over the
//! bins for each item.

use std::fmt;

use crate::limits::faults;
use crate::wire::Refusal;

/// What a row of sizes that is accepted comes to.
#[derive(Debug, Clone, Copy, PartialEq, Eq)]
pub struct Repacked {
    pub count: usize,
    pub saves_nothing: bool,
}

impl fmt::Display for Repacked {
    fn fmt(&self, f: &mut fmt::Formatter<'_>) -> fmt::Result {
        write!(f, "{} cartridges", self.count)?;
        match self.saves_nothing {
            true => write!(f, ", saves nothing"),
            false => Ok(()),
        }
    }
}

/// Gives each size its new bin, where so many are the old ones.
pub fn repack(
    sizes: &[u32],
    answers: &mut [u16],
    capacity: u32,
    old: u32,
) -> Result<Repacked, Refusal> {
    if let Some(&refusal) = faults(&[sizes], capacity, answers.len()).first() {
        return Err(refusal);
    }
    let (bins, count) = first_fit_decreasing(sizes, capacity);
    for (answer, bin) in answers.iter_mut().zip(bins) {
        *answer = bin as u16;
    }
    Ok(Repacked {
        count: count as usize,
        saves_nothing: count >= old,
    })
}

/// First-fit decreasing, equal sizes in row order: each item's bin, from 1, and the
/// number of bins.
pub fn first_fit_decreasing(items: &[u32], capacity: u32) -> (Vec<u32>, u32) {
    let mut order: Vec<usize> = (0..items.len()).collect();
    // This sort leaves equal ones as they stand.
    order.sort_by_key(|&i| std::cmp::Reverse(items[i]));
    let mut free: Vec<u32> = Vec::new();
    let mut bins = vec![0; items.len()];
    for i in order {
        let size = items[i];
        let bin = free.iter().position(|&f| f >= size).unwrap_or_else(|| {
            free.push(capacity);
            free.len() - 1
        });
        free[bin] -= size;
        bins[i] = bin as u32 + 1;
    }
    (bins, free.len() as u32)
}
