//! The most pairs that can be had of two rows, whatever the method: by trying every
//! way of pairing, and by augmenting paths.

/// Rows that are no longer have every way tried.
pub const SHORT: usize = 7;
/// The most ways of putting a picture beside a sound among which paths are sought.
pub const MOST_EDGES: usize = 160_000;

fn fits(picture: u32, sound: u32, capacity: u32) -> bool {
    u64::from(picture) + u64::from(sound) <= capacity.into()
}

/// Of short rows: every picture stays alone or goes with any sound that is left.
pub fn by_every_way(pictures: &[u32], sounds: &[u32], capacity: u32) -> usize {
    let Some((&picture, rest)) = pictures.split_first() else {
        return 0;
    };
    let alone = by_every_way(rest, sounds, capacity);
    let pairs = (0..sounds.len()).filter(|&sound| fits(picture, sounds[sound], capacity));
    let with = pairs.map(|sound| {
        let left = [&sounds[..sound], &sounds[sound + 1..]].concat();
        1 + by_every_way(rest, &left, capacity)
    });
    with.fold(alone, usize::max)
}

/// By Kuhn's method: a picture takes a sound that is free, or one whose own picture
/// finds another in the same way.
pub fn by_augmenting_paths(pictures: &[u32], sounds: &[u32], capacity: u32) -> usize {
    let mut matching = Matching {
        pictures,
        sounds,
        capacity,
        picture_of: vec![None; sounds.len()],
        seen: vec![false; sounds.len()],
    };
    let mut pairs = 0;
    for picture in 0..pictures.len() {
        // What a search has seen in vain leads nowhere for the next one either.
        if matching.finds(picture) {
            pairs += 1;
            matching.seen.fill(false);
        }
    }
    pairs
}

struct Matching<'a> {
    pictures: &'a [u32],
    sounds: &'a [u32],
    capacity: u32,
    /// The picture that each sound is with.
    picture_of: Vec<Option<usize>>,
    seen: Vec<bool>,
}

impl Matching<'_> {
    fn finds(&mut self, picture: usize) -> bool {
        for sound in 0..self.sounds.len() {
            let good = fits(self.pictures[picture], self.sounds[sound], self.capacity);
            if !good || self.seen[sound] {
                continue;
            }
            self.seen[sound] = true;
            let other = self.picture_of[sound];
            if other.is_none_or(|other| self.finds(other)) {
                self.picture_of[sound] = Some(picture);
                return true;
            }
        }
        false
    }
}

#[cfg(test)]
mod tests {
    use super::*;
    use crate::rng::Rng;

    #[test]
    fn the_most_are_found() {
        for (pictures, sounds, most) in [
            (&[][..], &[][..], 0),
            (&[5], &[5], 1),
            (&[5], &[6], 0),
            // The first takes the only sound of the second, and gives it up.
            (&[1, 9], &[1, 9], 2),
            (&[1, 2, 3], &[9, 8, 7], 3),
            (&[2, 3, 4], &[8, 8, 8], 1),
            (&[9, 9, 1], &[1, 1, 1, 1], 3),
        ] {
            assert_eq!(by_every_way(pictures, sounds, 10), most);
            assert_eq!(by_augmenting_paths(pictures, sounds, 10), most);
        }
    }

    #[test]
    fn both_ways_find_as_many() {
        for index in 0..2000 {
            let rng = &mut Rng::of_trial(5, index);
            let capacity = rng.between(2, 20) as u32;
            let [pictures, sounds] = [(); 2].map(|()| {
                let len = rng.between(0, 6);
                let size = |_| rng.between(1, capacity.into()) as u32;
                (0..len).map(size).collect::<Vec<u32>>()
            });
            let every = by_every_way(&pictures, &sounds, capacity);
            assert_eq!(by_augmenting_paths(&pictures, &sounds, capacity), every);
        }
    }
}
