//! Pairing in plain Rust, written from the paper alone and sharing nothing with the
//! library or its wrapper: Algorithm PM as it stands there, over the standard
//! library's sort.

use std::fmt;

use crate::limits::faults;
use crate::wire::Refusal;

/// The number of pairs of rows that are accepted.
#[derive(Debug, Clone, Copy, PartialEq, Eq)]
pub struct Pairs(pub usize);

impl fmt::Display for Pairs {
    fn fmt(&self, f: &mut fmt::Formatter<'_>) -> fmt::Result {
        write!(f, "pairs: {}", self.0)
    }
}

/// Gives each picture the place of its sound, from 1, or 0.
pub fn pair(
    pictures: &[u32],
    sounds: &[u32],
    answers: &mut [u16],
    capacity: u32,
) -> Result<Pairs, Refusal> {
    if let Some(&refusal) = faults(&[pictures, sounds], capacity, answers.len()).first() {
        return Err(refusal);
    }
    let pairs = partial_match(pictures, sounds, capacity);
    answers[..pictures.len()].fill(0);
    for &(picture, sound) in &pairs {
        answers[picture] = sound as u16 + 1;
    }
    Ok(Pairs(pairs.len()))
}

/// PM(Y, Z): the pairs, by their places from 0.
fn partial_match(y: &[u32], z: &[u32], capacity: u32) -> Vec<(usize, usize)> {
    let t = rising(z);
    let mut found = Vec::new();
    let mut k = t.len();
    for i in rising(y) {
        // T[k], T[k - 1], ..., where the paper counts from 1.
        let fits = |&j: &usize| u64::from(y[i]) + u64::from(z[t[j]]) <= capacity.into();
        let Some(j) = (0..k).rev().find(fits) else {
            break;
        };
        found.push((i, t[j]));
        k = j;
    }
    found
}

/// The places of a row from its smallest size; of equal ones the later is the larger.
pub fn rising(row: &[u32]) -> Vec<usize> {
    let mut places: Vec<usize> = (0..row.len()).collect();
    // This sort leaves equal ones as they stand.
    places.sort_by_key(|&place| row[place]);
    places
}
