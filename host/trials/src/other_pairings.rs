//! Other ways of pairing than the paper's: one that comes to the same answers, and
//! readings of the request that do not.

use crate::pairing::PairTrial;
use crate::pm::rising;

/// The pictures come in one order, and each takes the first sound of another order
/// that is left and fits.
pub struct Way {
    pub name: &'static str,
    pictures: fn(&[u32]) -> Vec<usize>,
    sounds: fn(&[u32]) -> Vec<usize>,
    /// The units that stay free beside a pair.
    free: u32,
}

/// The right one, but for a picture that finds none: a larger one fits beside no sound
/// that a smaller one does not, so the pictures and the sounds that are left can be
/// tried in vain.
pub const GOING_ON: Way = Way {
    name: "going on",
    pictures: rising,
    sounds: later_first,
    free: 0,
};

/// The wrong ones. The second, third and fourth find as many pairs as the right one.
pub const WRONG: [Way; 5] = [
    Way {
        name: "the smallest sound that fits",
        sounds: rising,
        ..GOING_ON
    },
    Way {
        name: "pictures from the largest",
        pictures: later_first,
        ..GOING_ON
    },
    Way {
        name: "the earlier of equal sounds first",
        sounds: earlier_first,
        ..GOING_ON
    },
    Way {
        name: "the later of equal pictures first",
        pictures: |row| earlier_first(row).into_iter().rev().collect(),
        ..GOING_ON
    },
    Way {
        name: "a unit left free",
        free: 1,
        ..GOING_ON
    },
];

/// The places from the largest size; of equal ones the later first.
fn later_first(row: &[u32]) -> Vec<usize> {
    rising(row).into_iter().rev().collect()
}

/// The places from the largest size; of equal ones the earlier first.
fn earlier_first(row: &[u32]) -> Vec<usize> {
    let mut places: Vec<usize> = (0..row.len()).collect();
    places.sort_by_key(|&place| std::cmp::Reverse(row[place]));
    places
}

impl Way {
    /// The answers to rows within their limits.
    pub fn answers(&self, trial: &PairTrial) -> Vec<u16> {
        let PairTrial {
            pictures, sounds, ..
        } = trial;
        let mut answers = vec![0; pictures.len()];
        let mut left = (self.sounds)(sounds);
        for picture in (self.pictures)(pictures) {
            let units = |sound: usize| pictures[picture] + sounds[sound] + self.free;
            let fits = |&sound: &usize| units(sound) <= trial.capacity;
            if let Some(first) = left.iter().position(fits) {
                answers[picture] = left.remove(first) as u16 + 1;
            }
        }
        answers
    }
}
