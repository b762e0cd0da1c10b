//! The fewest bins, exactly, for short lists: what a shelf or a plan is held
//! against.

/// The longest list whose fewest bins are searched for.
pub const SHORT: usize = 13;

/// The fewest bins for a list that grows item by item.
pub struct Fewest {
    capacity: u64,
    /// Largest first.
    items: Vec<u64>,
    bins: usize,
}

impl Fewest {
    pub fn new(capacity: u64) -> Self {
        let items = Vec::new();
        Self {
            capacity,
            items,
            bins: 0,
        }
    }

    pub fn add(&mut self, size: u64) {
        let place = self.items.partition_point(|&item| item >= size);
        self.items.insert(place, size);
        // One more bin always does for one more item.
        if !fits(&self.items, &mut vec![self.capacity; self.bins]) {
            self.bins += 1;
        }
    }

    pub fn bins(&self) -> usize {
        self.bins
    }
}

/// Whether the items, largest first, go into bins with these free spaces.
fn fits(items: &[u64], free: &mut [u64]) -> bool {
    let Some((&item, rest)) = items.split_first() else {
        return true;
    };
    if items.iter().sum::<u64>() > free.iter().sum() {
        return false;
    }
    for i in 0..free.len() {
        // Bins with equal space are alike: the first stands for them all.
        if free[i] >= item && !free[..i].contains(&free[i]) {
            free[i] -= item;
            if fits(rest, free) {
                return true;
            }
            free[i] += item;
        }
    }
    false
}

#[cfg(test)]
mod tests {
    use super::*;
    use crate::decreasing::first_fit_decreasing;

    #[test]
    fn the_fewest_are_found() {
        let mut fewest = Fewest::new(11);
        let after: Vec<usize> = [6, 5, 6, 4, 1]
            .into_iter()
            .map(|size| {
                fewest.add(size);
                fewest.bins()
            })
            .collect();
        assert_eq!(after, [1, 1, 2, 2, 2]);
        // First-fit decreasing needs three bins for these, two will do.
        let mut fewest = Fewest::new(10);
        for size in [4, 4, 3, 3, 3, 3] {
            fewest.add(size);
        }
        assert_eq!(fewest.bins(), 2);
        assert_eq!(first_fit_decreasing(&[4, 4, 3, 3, 3, 3], 10).1, 3);
    }
}
