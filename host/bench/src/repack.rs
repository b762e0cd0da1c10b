//! Repacking by hand: First-Fit-Decreasing in safe Rust with the standard library's
//! sort, by a tournament tree as the library has it, and by trying the bins one after
//! another. Both check what the library checks.

use crate::by_hand::{fault, sort, unpack, MOST};

/// The packed result is that of the library's C interface.
fn repacked(count: usize, old: u32) -> u64 {
    u64::from(count as u64 >= old.into()) << 32 | count as u64
}

/// A word for each size, from the largest on: what is left of the capacity, and the
/// place.
fn largest_first<'a>(words: &'a mut [u64; MOST], sizes: &[u32], capacity: u32) -> &'a [u64] {
    sort(words, sizes, |size| capacity - size)
}

/// The root at 1 and the leaves from the least power of two that is not below the
/// number of sizes; bins that are not opened stand at 0.
pub fn by_tree(sizes: &[u32], answers: &mut [u16], capacity: u32, old: u32) -> u64 {
    if let Some(refused) = fault(&[sizes], answers, capacity) {
        return refused;
    }
    let mut words = [0; MOST];
    let mut tree = [0; 2 * MOST];
    let leaves = sizes.len().next_power_of_two();
    let mut opened = 0;
    for &word in largest_first(&mut words, sizes, capacity) {
        let (left, place) = unpack(word);
        let size = capacity - left;
        let (leaf, free) = if tree[1] >= size {
            let leaf = find(&tree, leaves, size);
            (leaf, tree[leaf] - size)
        } else {
            opened += 1;
            (leaves + opened - 1, capacity - size)
        };
        store(&mut tree, leaf, free);
        answers[place] = (leaf - leaves + 1) as u16;
    }
    repacked(opened, old)
}

/// The first leaf with space for this size; the root must have it.
// No mask spares the check of bounds here: it would stand between two loads.
#[inline(always)]
fn find(tree: &[u32; 2 * MOST], leaves: usize, size: u32) -> usize {
    let mut node = 1;
    while node < leaves {
        node = 2 * node + usize::from(tree[2 * node] < size);
    }
    node
}

/// Sets a leaf's free space, and the maxima above as far as they change.
#[inline(always)]
fn store(tree: &mut [u32; 2 * MOST], leaf: usize, free: u32) {
    let mut node = leaf;
    let mut largest = free;
    tree[node] = free;
    while node > 1 {
        largest = largest.max(tree[node ^ 1]);
        node /= 2;
        if tree[node] == largest {
            break;
        }
        tree[node] = largest;
    }
}

/// The same answers without a tree.
pub fn by_scan(sizes: &[u32], answers: &mut [u16], capacity: u32, old: u32) -> u64 {
    if let Some(refused) = fault(&[sizes], answers, capacity) {
        return refused;
    }
    let mut words = [0; MOST];
    let mut free: Vec<u32> = Vec::with_capacity(sizes.len());
    for &word in largest_first(&mut words, sizes, capacity) {
        let (left, place) = unpack(word);
        let size = capacity - left;
        let bin = free.iter().position(|&free| free >= size);
        let bin = bin.unwrap_or_else(|| {
            free.push(capacity);
            free.len() - 1
        });
        free[bin] -= size;
        answers[place] = bin as u16 + 1;
    }
    repacked(free.len(), old)
}

#[cfg(test)]
mod tests {
    use super::*;

    /// With the library, on rows of every length up to some, and on refused ones.
    #[test]
    fn all_agree_on_short_and_refused_rows() {
        let rows = (0..40).map(|len: u32| (0..len).map(|i| i * 37 % 60 + 1).collect());
        let rows = rows.chain([vec![1, 0, 61], vec![1; MOST + 1]]);
        for row in rows.collect::<Vec<Vec<u32>>>() {
            for (capacity, words, old) in [(60, 40, 7), (0, 40, 0), (60, 5, 0), (59, 40, 0)] {
                let [library, tree, scan] =
                    [crate::repack_by_library, by_tree, by_scan].map(|engine| {
                        let mut answers = vec![9; words];
                        (engine(&row, &mut answers, capacity, old), answers)
                    });
                assert_eq!(tree, library);
                assert_eq!(scan, library);
            }
        }
    }
}
