//! What the library's answers are held against besides the paper's: each check
//! says what is wrong with what a stream came to.

use crate::compare::Outcome;
use crate::paper::Shelved;
use crate::streams::StreamTrial;
use crate::{
    either_opening, figures, independence, left_out, looks, repacked, still_shelved, true_sizes,
    walk,
};

pub type Check = fn(&StreamTrial, &Outcome) -> Option<&'static str>;

pub const CHECKS: [Check; 8] = [
    figures::fault,
    still_shelved::fault,
    true_sizes::fault,
    looks::fault,
    left_out::fault,
    either_opening::fault,
    independence::fault,
    repacked::own_fault,
];

/// What is wrong with what the paper hands up besides its answers: the walks of
/// its counts and its searches.
pub fn fault_of_paper(shelved: &Shelved) -> Option<&'static str> {
    walk::fault(shelved).or_else(|| looks::fault_of_paper(shelved))
}
