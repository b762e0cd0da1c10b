//! What repacking and pairing by hand have in common: the limits that the library
//! checks, and the sizes of a row sorted with their places.

/// The most sizes in a row.
pub const MOST: usize = 4096;

/// The packed result of refused rows is that of the library's C interface.
pub fn refused(number: u64, place: usize) -> u64 {
    1 << 63 | number << 32 | place as u64
}

/// The first refusal of the rows in the order of the library's, if they have any. The
/// first row is the one that is answered; the places of each count on after the last.
pub fn fault(rows: &[&[u32]], answers: &[u16], capacity: u32) -> Option<u64> {
    if !(1..=16_777_216).contains(&capacity) {
        return Some(refused(11, 0));
    }
    if rows.iter().any(|row| row.len() > MOST) {
        return Some(refused(12, 0));
    }
    let is_outside = |&size: &u32| size == 0 || size > capacity;
    let mut before = 0;
    for row in rows {
        if let Some(place) = row.iter().position(is_outside) {
            return Some(refused(13, before + place + 1));
        }
        before += row.len();
    }
    (answers.len() < rows[0].len()).then(|| refused(22, 0))
}

/// Fills in a word for each size: what it is sorted by, and then the place.
pub fn pack<'a>(
    words: &'a mut [u64; MOST],
    sizes: &[u32],
    key: impl Fn(u32) -> u32,
) -> &'a mut [u64] {
    let words = &mut words[..sizes.len()];
    for ((word, &size), place) in words.iter_mut().zip(sizes).zip(0..) {
        *word = u64::from(key(size)) << 12 | place;
    }
    words
}

/// The same words, sorted. All are different, so an unstable sort does; it is quicker
/// than a stable one of the places by their sizes, but for rows of few sizes.
pub fn sort<'a>(words: &'a mut [u64; MOST], sizes: &[u32], key: impl Fn(u32) -> u32) -> &'a [u64] {
    let words = pack(words, sizes, key);
    words.sort_unstable();
    words
}

/// What a word is sorted by, and its place.
pub fn unpack(word: u64) -> (u32, usize) {
    ((word >> 12) as u32, word as usize % MOST)
}
