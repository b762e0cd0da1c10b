//! Pairing by hand: Algorithm PM in safe Rust, with the standard library's sort and a
//! walk from both ends, and by looking through all the sounds for each picture. Both
//! check what the library checks.

use crate::by_hand::{fault, pack, sort, unpack, MOST};

/// From the largest sound down: the smallest picture that is left takes it, or it fits
/// beside none.
pub fn by_ends(pictures: &[u32], sounds: &[u32], answers: &mut [u16], capacity: u32) -> u64 {
    if let Some(refused) = fault(&[pictures, sounds], answers, capacity) {
        return refused;
    }
    answers[..pictures.len()].fill(0);
    let [mut words, mut others] = [[0; MOST]; 2];
    let pictures = sort(&mut words, pictures, |size| size);
    let sounds = sort(&mut others, sounds, |size| size);
    let mut pairs = 0;
    for &sound in sounds.iter().rev() {
        let Some(&picture) = pictures.get(pairs) else {
            break;
        };
        let (picture, place) = unpack(picture);
        let (sound, place_of_sound) = unpack(sound);
        if picture + sound <= capacity {
            answers[place] = place_of_sound as u16 + 1;
            pairs += 1;
        }
    }
    pairs as u64
}

/// The same answers with only the pictures sorted.
pub fn by_scan(pictures: &[u32], sounds: &[u32], answers: &mut [u16], capacity: u32) -> u64 {
    if let Some(refused) = fault(&[pictures, sounds], answers, capacity) {
        return refused;
    }
    answers[..pictures.len()].fill(0);
    let [mut words, mut others] = [[0; MOST]; 2];
    let mut left = pack(&mut others, sounds, |size| size).to_vec();
    let mut pairs = 0;
    for &picture in sort(&mut words, pictures, |size| size) {
        let (picture, place) = unpack(picture);
        // Words with as much space or less, of which the largest is wanted.
        let above = u64::from(capacity - picture + 1) << 12;
        let fitting = (0..).zip(&left).filter(|&(_, &sound)| sound < above);
        let Some((largest, &sound)) = fitting.max_by_key(|&(_, &sound)| sound) else {
            break;
        };
        answers[place] = unpack(sound).1 as u16 + 1;
        left.swap_remove(largest);
        pairs += 1;
    }
    pairs
}

#[cfg(test)]
mod tests {
    use super::*;

    /// With the library, on rows of every length up to some, and on refused ones.
    #[test]
    fn all_agree_on_short_and_refused_rows() {
        let rows = (0..30).map(|len: u32| (0..len).map(|i| i * 37 % 60 + 1).collect());
        let rows = rows.chain([vec![1, 0, 61], vec![1; MOST + 1]]);
        let rows: Vec<Vec<u32>> = rows.collect();
        let pairs = rows
            .iter()
            .flat_map(|one| rows.iter().map(move |other| (one, other)));
        for (pictures, sounds) in pairs {
            for (capacity, words) in [(60, 30), (0, 30), (60, 5), (59, 30)] {
                let [library, ends, scan] =
                    [crate::pair_by_library, by_ends, by_scan].map(|engine| {
                        let mut answers = vec![9; words];
                        (engine(pictures, sounds, &mut answers, capacity), answers)
                    });
                assert_eq!(ends, library);
                assert_eq!(scan, library);
            }
        }
    }
}
