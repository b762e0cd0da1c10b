//! The rows of sizes to time: 4,096 each, but for short ones.

use shelf::MAX_ENTRIES;

use crate::mixes::{Numbers, CAPACITY};

/// A mix of so many rows that go together.
pub struct RowMix<const N: usize> {
    pub name: &'static str,
    len: usize,
    /// A size for each row from the generator's numbers.
    sizes: fn(&mut Numbers) -> [u32; N],
    order: Order,
}

/// How the sizes of a row follow each other.
enum Order {
    Any,
    Falling,
    Rising,
}

/// Rows to repack.
pub const ROWS: [RowMix<1>; 6] = [
    // About half of them open a bin.
    RowMix {
        name: "row-uniform",
        len: MAX_ENTRIES,
        sizes: any_sizes,
        order: Order::Any,
    },
    // Some tens of bins, each filled up before the next.
    RowMix {
        name: "row-small",
        len: MAX_ENTRIES,
        sizes: |numbers| [numbers.between(1, CAPACITY / 64)],
        order: Order::Any,
    },
    RowMix {
        name: "row-ties",
        len: MAX_ENTRIES,
        sizes: eight_sizes,
        order: Order::Any,
    },
    // Sorted already.
    RowMix {
        name: "row-falling",
        len: MAX_ENTRIES,
        sizes: any_sizes,
        order: Order::Falling,
    },
    RowMix {
        name: "row-rising",
        len: MAX_ENTRIES,
        sizes: any_sizes,
        order: Order::Rising,
    },
    // 256 sizes.
    RowMix {
        name: "row-256",
        len: 256,
        sizes: any_sizes,
        order: Order::Any,
    },
];

/// Pictures and sounds to pair.
pub const PAIRS: [RowMix<2>; 6] = [
    // Nearly all are paired.
    RowMix {
        name: "pair-uniform",
        len: MAX_ENTRIES,
        sizes: any_sizes,
        order: Order::Any,
    },
    // Each picture has a sound that just fits beside it, or just does not.
    RowMix {
        name: "pair-tight",
        len: MAX_ENTRIES,
        sizes: |numbers| {
            let picture = numbers.between(100, CAPACITY - 100);
            [picture, CAPACITY - picture + numbers.between(0, 10) - 5]
        },
        order: Order::Any,
    },
    // About a third of either row is left.
    RowMix {
        name: "pair-large",
        len: MAX_ENTRIES,
        sizes: |numbers| [(); 2].map(|()| numbers.between(CAPACITY / 4, CAPACITY)),
        order: Order::Any,
    },
    RowMix {
        name: "pair-ties",
        len: MAX_ENTRIES,
        sizes: eight_sizes,
        order: Order::Any,
    },
    // Sorted already.
    RowMix {
        name: "pair-rising",
        len: MAX_ENTRIES,
        sizes: any_sizes,
        order: Order::Rising,
    },
    // 256 of each.
    RowMix {
        name: "pair-256",
        len: 256,
        sizes: any_sizes,
        order: Order::Any,
    },
];

fn any_sizes<const N: usize>(numbers: &mut Numbers) -> [u32; N] {
    [(); N].map(|()| numbers.between(1, CAPACITY))
}

/// Each of eight sizes some five hundred times.
fn eight_sizes<const N: usize>(numbers: &mut Numbers) -> [u32; N] {
    [(); N].map(|()| numbers.between(1, 8) * (CAPACITY / 9))
}

impl<const N: usize> RowMix<N> {
    /// The rows of this number, the same in every run.
    pub fn rows(&self, seed: u64) -> [Vec<u32>; N] {
        let mut numbers = Numbers::new(seed);
        let mut rows = [(); N].map(|()| Vec::with_capacity(self.len));
        for _ in 0..self.len {
            for (row, size) in rows.iter_mut().zip((self.sizes)(&mut numbers)) {
                row.push(size);
            }
        }
        for row in &mut rows {
            match self.order {
                Order::Any => {}
                Order::Falling => row.sort_by(|one, other| other.cmp(one)),
                Order::Rising => row.sort(),
            }
        }
        rows
    }
}
