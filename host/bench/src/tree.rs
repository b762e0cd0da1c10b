//! The same algorithm by hand: tournament trees in safe Rust; beside them a row
//! of figures for each bin, as a vault sheet needs them and a count walks, and a
//! list of the bin and the sizes of each command's item, for a withdrawal or a
//! settling to find them. Each production has its own.

use std::hint::black_box;
use std::mem::replace;

/// What one production has.
struct Store {
    trees: Trees,
    rows: Rows,
    items: Items,
    counts: Counts,
}

/// Five trees of up to 512 leaves, the root at 1 and the leaves from `leaves`
/// up. Trees 1 to 4 hold the free space of the bins of a class, tree 0 that of
/// the bins with an A item. Everything else stands at 0, where nothing fits.
type Trees = [Tree; 5];
type Tree = [u32; 2 * MAX_LEAVES];

/// What is known of each bin: its class, 0 where it is not opened, its free
/// space, the items that it holds, and how many of these are A.
type Rows = [[u32; 4]; MAX_LEAVES];

/// Those of each command.
type Items = [Item; MAX_COMMANDS];

#[derive(Clone, Copy)]
struct Item {
    place: u32,
    /// Its stored size; 0 where there is none of this production, or none any more.
    size: u32,
    /// The stored size that it was shelved by.
    greatest: u32,
    /// The least that it may be settled at, without a trailer; 0 where it does not
    /// wait for that.
    least: u32,
}

impl Item {
    const NONE: Self = Self {
        place: 0,
        size: 0,
        greatest: 0,
        least: 0,
    };
}

const MAX_LEAVES: usize = 512;
const MAX_COMMANDS: usize = 4096;
const WITH_A: usize = 0;

impl Store {
    const EMPTY: Self = Self {
        trees: [[0; 2 * MAX_LEAVES]; 5],
        rows: [[0; 4]; MAX_LEAVES],
        items: [Item::NONE; MAX_COMMANDS],
        counts: Counts::NONE,
    };
}

#[derive(Clone, Copy)]
struct Counts {
    opened: usize,
    /// B2 items since the last m-th.
    b2_since_m: u32,
    shelved: u64,
    /// The most looks of a search.
    looks: u64,
}

impl Counts {
    const NONE: Self = Self {
        opened: 0,
        b2_since_m: 0,
        shelved: 0,
        looks: 0,
    };
}

/// The first leaf with space for this size, and the looks at left halves on the
/// way; the root must have it.
// Not inlined: the loop then has all the registers.
#[inline(never)]
fn find(tree: &Tree, leaves: usize, size: u32) -> (usize, u64) {
    let mut node = 1;
    let mut looks = 0;
    while node < leaves {
        looks += 1;
        // The mask changes nothing, and is cheaper than a check of bounds.
        node = 2 * node + usize::from(tree[2 * node % tree.len()] < size);
    }
    (node, looks)
}

/// Sets a leaf's free space, and the maxima above as far as they change.
#[inline(never)]
fn store(tree: &mut Tree, leaf: usize, free: u32) {
    // The mask changes nothing, and spares every check of bounds below.
    let mut node = leaf % tree.len();
    let mut largest = free;
    tree[node] = free;
    while node > 1 {
        largest = largest.max(tree[node ^ 1]);
        node /= 2;
        if tree[node] == largest {
            break;
        }
        tree[node] = largest;
    }
}

/// The same for a leaf whose free space rises: no sibling can be larger than
/// the maximum above it.
#[inline(always)]
fn raise(tree: &mut Tree, leaf: usize, free: u32) {
    // As above.
    let mut node = leaf % tree.len();
    tree[node] = free;
    while node > 1 {
        node /= 2;
        if tree[node] >= free {
            break;
        }
        tree[node] = free;
    }
}

/// Enters an item in the row of its bin, and tells the A items held then.
#[inline(always)]
fn enter(rows: &mut Rows, place: usize, class: u32, free: u32, a: u32) -> u32 {
    // The mask changes nothing, and spares a check of bounds.
    let row = &mut rows[place % MAX_LEAVES];
    let [_, _, held, held_a] = *row;
    *row = [class, free, held + 1, held_a + a];
    held_a + a
}

/// The walk of a count, as the library makes it: reads the rows from the first
/// place up to one that is not opened, or to the end of the stock. The figure,
/// and the places read.
// Not inlined: the loop over the commands then keeps its registers.
#[inline(never)]
fn walk(rows: &Rows, stock: usize) -> (u32, u32) {
    let mut figure = 0;
    let mut places = 0;
    for [class, ..] in &rows[..stock] {
        places += 1;
        if *class == 0 {
            break;
        }
        figure += 1;
    }
    (figure, places)
}

/// Shows the free space of a bin of class 1 in the tree of its class, and in
/// that of the bins with an A if it holds one.
#[inline(always)]
fn show_class_1(trees: &mut Trees, leaf: usize, free: u32, held_a: u32) {
    store(&mut trees[1], leaf, free);
    store(&mut trees[WITH_A], leaf, if held_a > 0 { free } else { 0 });
}

/// Takes out the item of a command: its place, and the free space then.
// Not inlined: the loop over the commands then keeps its registers.
#[inline(never)]
fn take_out(own: &mut Store, leaves: usize, capacity: u32, number: u16) -> Option<(u32, u32)> {
    let Store {
        trees, rows, items, ..
    } = own;
    let named = items.get_mut(usize::from(number).wrapping_sub(1))?;
    let Item {
        place,
        size,
        greatest,
        ..
    } = *named;
    if size == 0 {
        return None;
    }
    *named = Item::NONE;
    // The masks change nothing, and spare checks of bounds.
    let row = &mut rows[place as usize % MAX_LEAVES];
    let [class, free, held, held_a] = *row;
    let (free, held_a) = (free + size, held_a - u32::from(2 * greatest > capacity));
    *row = [class, free, held - 1, held_a];
    let leaf = leaves + place as usize;
    raise(&mut trees[class as usize % trees.len()], leaf, free);
    if class == 1 {
        store(&mut trees[WITH_A], leaf, if held_a > 0 { free } else { 0 });
    }
    Some((place, free))
}

/// Settles the item of a command: its place, and the free space then; or the number
/// of the refusal.
#[inline(never)]
fn settle(
    own: &mut Store,
    leaves: usize,
    trailer: u32,
    number: u16,
    bare: u32,
) -> Result<(u32, u32), u16> {
    let Store {
        trees, rows, items, ..
    } = own;
    let named = items.get_mut(usize::from(number).wrapping_sub(1));
    let item = named.filter(|item| item.least > 0).ok_or(20_u16)?;
    // Its greatest size has the trailer in it, so nothing passes 32 bits.
    if bare < item.least || bare > item.greatest - trailer {
        return Err(21);
    }
    let size = bare + trailer;
    let (place, less) = (item.place, item.size - size);
    (item.size, item.least) = (size, 0);
    // The masks change nothing, and spare checks of bounds.
    let row = &mut rows[place as usize % MAX_LEAVES];
    row[1] += less;
    let [class, free, _, held_a] = *row;
    let leaf = leaves + place as usize;
    raise(&mut trees[class as usize % trees.len()], leaf, free);
    if class == 1 && held_a > 0 {
        raise(&mut trees[WITH_A], leaf, free);
    }
    Ok((place, free))
}

struct Opening {
    capacity: u32,
    stock: usize,
    m: u32,
    trailer: u32,
    /// The bytes that it takes.
    len: usize,
}

fn refused(number: u64, offset: usize) -> u64 {
    1 << 63 | number << 32 | offset as u64
}

/// Finds the first fault, or the opening and the number of commands.
fn read(stream: &[u8]) -> Result<(Opening, usize), u64> {
    let (len, trailer): (_, u16) = match *stream {
        [0x01, ..] => (8, 0),
        [0x11, _, _, _, _, _, _, _, t0, t1, ..] => (10, u16::from_be_bytes([t0, t1])),
        [0x11, ..] => return Err(refused(3, 0)),
        _ => return Err(refused(1, 0)),
    };
    let [_, c0, c1, c2, c3, s0, s1, m, ..] = *stream else {
        return Err(refused(3, 0));
    };
    let opening = Opening {
        capacity: u32::from_be_bytes([c0, c1, c2, c3]),
        stock: u16::from_be_bytes([s0, s1]).into(),
        m: m.into(),
        trailer: trailer.into(),
        len,
    };
    if !(1..=16_777_216).contains(&opening.capacity)
        || !(1..=512).contains(&opening.stock)
        || !(6..=9).contains(&opening.m)
    {
        return Err(refused(5, 0));
    }
    let mut offset = len;
    let mut commands = 0;
    loop {
        // Items by themselves: the branches are foreseen, and wait for nothing.
        while commands < MAX_COMMANDS && matches!(stream[offset..], [0x02, _, _, _, _, ..]) {
            offset += 5;
            commands += 1;
        }
        let Some(&byte) = stream.get(offset) else {
            return Ok((opening, commands));
        };
        if commands == MAX_COMMANDS {
            return Err(refused(6, offset));
        }
        let len = match byte {
            0x01 | 0x11 => return Err(refused(4, offset)),
            0x02 => 5,
            0x03 => 1,
            0x04 => 3,
            0x05 => 2,
            0x06 => 9,
            0x07 => 7,
            _ => return Err(refused(2, offset)),
        };
        if stream.len() - offset < len {
            return Err(refused(3, offset));
        }
        if byte == 0x05 && stream[offset + 1] > 1 {
            return Err(refused(18, offset));
        }
        offset += len;
        commands += 1;
    }
}

/// The packed result is that of the library's C interface.
pub fn shelve(stream: &[u8], answers: &mut [u16], free: &mut [u32]) -> u64 {
    let mut first = Store::EMPTY;
    let mut second = None;
    let result = shelve_and_enter(stream, answers, free, &mut first, &mut second);
    // Not all of the figures are read again, but all are to be written.
    black_box((&first.rows, second.as_ref().map(|store| &store.rows)));
    result
}

/// Shelves, and enters each item in the rows. The first production's store is
/// empty before; the second's is made when it is first switched to.
fn shelve_and_enter(
    stream: &[u8],
    answers: &mut [u16],
    free_units: &mut [u32],
    first: &mut Store,
    second: &mut Option<Store>,
) -> u64 {
    let (opening, commands) = match read(stream) {
        Ok(read) => read,
        Err(refused) => return refused,
    };
    if answers.len() < commands || free_units.len() < commands {
        return refused(7, stream.len());
    }
    let mut at = At {
        rest: &stream[opening.len..],
        answers: &mut answers[..commands],
        free_units: &mut free_units[..commands],
        answered: 0,
    };
    let mut production = 0;
    let mut own = first;
    let mut other: Option<&mut Store> = None;
    let mut unmade = Some(second);
    loop {
        let opened_by_other = other.as_ref().map_or(0, |other| other.counts.opened);
        answer_stretch(&opening, opening.stock - opened_by_other, own, &mut at);
        let [0x05, to, ref after @ ..] = *at.rest else {
            let (own, other) = (own.counts, other.map_or(Counts::NONE, |other| other.counts));
            let looks = own.looks.max(other.looks);
            let shelved = own.shelved + other.shelved;
            return looks << 32 | shelved << 16 | (own.opened + other.opened) as u64;
        };
        at.rest = after;
        at.answer((to.into(), 0));
        if to != production {
            production = to;
            let next = match other.take() {
                Some(made) => made,
                None => unmade.take().expect("made once").insert(Store::EMPTY),
            };
            other = Some(replace(&mut own, next));
        }
    }
}

/// How far a stream is answered.
struct At<'a> {
    /// The commands to come.
    rest: &'a [u8],
    answers: &'a mut [u16],
    free_units: &'a mut [u32],
    answered: usize,
}

impl At<'_> {
    fn answer(&mut self, (word, free): (u16, u32)) {
        self.answers[self.answered] = word;
        self.free_units[self.answered] = free;
        self.answered += 1;
    }
}

/// Answers the commands up to the next switch, all of the production with this
/// store, which has so much of the stock.
fn answer_stretch(opening: &Opening, own_stock: usize, own: &mut Store, at: &mut At<'_>) {
    let Opening {
        capacity,
        stock,
        m,
        trailer,
        ..
    } = *opening;
    // The most that fits beside a trailer. No sum is made of a size above it, so
    // none passes 32 bits.
    let most = capacity.saturating_sub(trailer);
    let leaves = stock.next_power_of_two();
    let Counts {
        mut opened,
        mut b2_since_m,
        mut shelved,
        mut looks,
    } = own.counts;
    let mut rest = at.rest;
    let words = at.answers[at.answered..].iter_mut();
    let words = words.zip(&mut at.free_units[at.answered..]);
    for ((word, left), item) in words.zip(at.answered..MAX_COMMANDS) {
        // The size that an item is shelved by, and the least of its range, if any.
        let (bare, least) = match *rest {
            [0x02, s0, s1, s2, s3, ref after @ ..] => {
                rest = after;
                (u32::from_be_bytes([s0, s1, s2, s3]), 0)
            }
            [0x06, l0, l1, l2, l3, g0, g1, g2, g3, ref after @ ..] => {
                rest = after;
                let least = u32::from_be_bytes([l0, l1, l2, l3]);
                let greatest = u32::from_be_bytes([g0, g1, g2, g3]);
                if least == 0 || least > greatest {
                    (*word, *left) = (0x8000 + 19, 0);
                    continue;
                }
                (greatest, least)
            }
            [0x07, n0, n1, s0, s1, s2, s3, ref after @ ..] => {
                rest = after;
                let number = u16::from_be_bytes([n0, n1]);
                let bare = u32::from_be_bytes([s0, s1, s2, s3]);
                (*word, *left) = match settle(own, leaves, trailer, number, bare) {
                    Ok((place, free)) => ((place + 1) as u16, free),
                    Err(refusal) => (0x8000 + refusal, 0),
                };
                continue;
            }
            [0x04, n0, n1, ref after @ ..] => {
                rest = after;
                let number = u16::from_be_bytes([n0, n1]);
                (*word, *left) = match take_out(own, leaves, capacity, number) {
                    Some((place, free)) => {
                        shelved -= 1;
                        ((place + 1) as u16, free)
                    }
                    None => (0x8000 + 17, 0),
                };
                continue;
            }
            [0x05, ..] | [] => {
                at.answered = item;
                break;
            }
            [_, ref after @ ..] => {
                rest = after;
                // No answer has the places read, in the library neither.
                let (figure, _) = walk(&own.rows, stock);
                (*word, *left) = (figure as u16, 0);
                continue;
            }
        };
        if bare == 0 {
            (*word, *left) = (0x8000 + 8, 0);
            continue;
        }
        if bare > most {
            (*word, *left) = (0x8000 + 9, 0);
            continue;
        }
        let size = bare + trailer;
        // Sizes are at most 2^24, so these products stay within 32 bits.
        let tree = if 3 * size <= capacity {
            4
        } else if 2 * size > capacity {
            1
        } else if 5 * size > 2 * capacity {
            2
        } else if b2_since_m + 1 < m {
            3
        } else {
            WITH_A
        };
        let Store {
            trees, rows, items, ..
        } = &mut *own;
        // One look at the root.
        looks = looks.max(1);
        let (leaf, free) = if trees[tree][1] >= size {
            let (leaf, further) = find(&trees[tree], leaves, size);
            looks = looks.max(1 + further);
            (leaf, trees[tree][leaf % (2 * MAX_LEAVES)] - size)
        } else if opened < own_stock {
            opened += 1;
            (leaves + opened - 1, capacity - size)
        } else {
            (*word, *left) = (0x8000 + 10, 0);
            continue;
        };
        let place = leaf - leaves;
        match tree {
            WITH_A => {
                let held_a = enter(rows, place, 1, free, 0);
                show_class_1(trees, leaf, free, held_a);
                b2_since_m = 0;
            }
            1 => {
                let held_a = enter(rows, place, 1, free, 1);
                show_class_1(trees, leaf, free, held_a);
            }
            3 => {
                enter(rows, place, 3, free, 0);
                store(&mut trees[3], leaf, free);
                b2_since_m += 1;
            }
            _ => {
                enter(rows, place, tree as u32, free, 0);
                store(&mut trees[tree], leaf, free);
            }
        }
        items[item] = Item {
            place: place as u32,
            size,
            greatest: size,
            least,
        };
        shelved += 1;
        (*word, *left) = ((place + 1) as u16, free);
    }
    own.counts = Counts {
        opened,
        b2_since_m,
        shelved,
        looks,
    };
    at.rest = rest;
}

#[cfg(test)]
mod tests {
    use super::*;
    use crate::mixes::{Mix, MIXES};
    use crate::Engine;
    use shelf::{Answer, Command, Opening, Production, StreamBuilder};

    /// A stream of the mix, its answers and the rows of either production.
    struct Shelved {
        stream: StreamBuilder,
        words: Vec<u16>,
        free: Vec<u32>,
        rows: [Rows; 2],
    }

    fn shelved(mix: &Mix) -> Shelved {
        let stream = mix.stream(1);
        let (mut words, mut free) = stream.rows();
        let (mut first, mut second) = (Store::EMPTY, None);
        shelve_and_enter(
            stream.bytes(),
            &mut words,
            &mut free,
            &mut first,
            &mut second,
        );
        let rows = [first, second.unwrap_or(Store::EMPTY)].map(|store| store.rows);
        Shelved {
            stream,
            words,
            free,
            rows,
        }
    }

    impl Shelved {
        /// Each command and its answer, with the number of its production.
        fn answers(&self) -> impl Iterator<Item = (usize, Command, Answer)> + '_ {
            let stream = self.stream.bytes();
            let answers = shelf::answers(stream, &self.words, &self.free);
            let answers = answers.zip(shelf::productions(stream));
            answers.map(|((command, answer), production)| {
                (production.number().into(), command, answer)
            })
        }
    }

    #[test]
    fn the_rows_are_those_of_the_sheet() {
        for mix in &MIXES {
            let shelved = shelved(mix);
            let bytes = shelved.stream.bytes();
            let opening = Opening::read(bytes).unwrap();
            let mut expected = [[[0; 4]; MAX_LEAVES]; 2];
            for row in shelf::sheet(bytes).rows() {
                let rows = &mut expected[usize::from(row.production.number())];
                rows[usize::from(row.number) - 1] =
                    [row.class.into(), row.free, row.held.into(), 0];
            }
            let mut sizes = Vec::new();
            for (production, command, answer) in shelved.answers() {
                let a = |size: u64| u32::from(2 * size > opening.capacity.into());
                let rows = &mut expected[production];
                // An A is one by the size that it was shelved by.
                sizes.push(0);
                match (command, answer) {
                    (
                        Command::Shelve { size } | Command::Reserve { greatest: size, .. },
                        Answer::Placed { bin, .. },
                    ) => {
                        let size = opening.stored(size);
                        *sizes.last_mut().unwrap() = size;
                        rows[usize::from(bin) - 1][3] += a(size);
                    }
                    (Command::Withdraw { number }, Answer::Withdrawn { bin, .. }) => {
                        let size = sizes[usize::from(number) - 1];
                        rows[usize::from(bin) - 1][3] -= a(size);
                    }
                    _ => {}
                }
            }
            assert_eq!(shelved.rows, expected, "{}", mix.name);
        }
    }

    #[test]
    fn names_of_no_item_are_refused() {
        let mut stream = StreamBuilder::open(60, 2, 6);
        stream.shelve(35).shelve(61).count().withdraw(1);
        for number in [0, 1, 2, 3, 4, 10, 11, 4096, 4097, u16::MAX] {
            stream.withdraw(number);
        }
        let (mut words, mut free) = stream.rows();
        let result = shelve(stream.bytes(), &mut words, &mut free);
        assert_eq!((result, &words[..4]), (1 << 32 | 1, &[1, 0x8009, 1, 1][..]));
        assert_eq!((words[4..].to_vec(), free[3]), (vec![0x8011; 10], 60));
    }

    #[test]
    fn an_item_of_the_other_production_is_refused() {
        use Production::{First, Second};
        let mut stream = StreamBuilder::open(60, 3, 6);
        stream.shelve(35).switch(Second).withdraw(1).shelve(40);
        stream.switch(First).withdraw(4).switch(First).shelve(30);
        stream.switch(Second).shelve(20).count().withdraw(4);
        stream.switch(First).count().withdraw(1);
        let expected = [1, 1, 0x8011, 1, 0, 0x8011, 0, 2, 1, 0x800A, 1, 1, 0, 2, 1];
        for (engine, looks) in [(shelve as Engine, 1), (crate::scan::shelve, 0)] {
            let (mut words, mut free) = stream.rows();
            let result = engine(stream.bytes(), &mut words, &mut free);
            let totals = looks << 32 | 1 << 16 | 3;
            assert_eq!((result, &words[..]), (totals, &expected[..]));
            assert_eq!((free[3], free[7], free[11], free[14]), (20, 30, 60, 60));
        }
    }

    /// A and B2 that share cartridges, settled, taken out and refused in each way.
    #[test]
    fn ranges_are_shelved_and_settled() {
        let mut stream = StreamBuilder::open_with_trailer(60, 2, 6, 5);
        stream.reserve(0, 9).reserve(9, 8).reserve(1, 56);
        stream.reserve(1, u32::MAX).reserve(10, 55); // 5: an A
        stream.settle(5, 9).settle(5, 56).settle(5, u32::MAX);
        stream
            .settle(0, 9)
            .settle(1, 9)
            .settle(4096, 9)
            .settle(4097, 9);
        stream.settle(5, 10).settle(5, 10); // 13: 15 units of the first
        stream.shelve(40).settle(15, 40); // 15: the other A
        stream.withdraw(5).withdraw(15).reserve(1, 16); // 19: a B2
        stream.switch(Production::Second).settle(19, 1).shelve(1);
        stream.switch(Production::First).settle(19, 1).withdraw(19);
        let words = [
            0x8013, 0x8013, 0x8009, 0x8009, 1, 0x8015, 0x8015, 0x8015, 0x8014, 0x8014, 0x8014,
            0x8014, 1, 0x8014, 1, 0x8014, 1, 1, 2, 1, 0x8014, 0x800A, 0, 2, 2,
        ];
        let free = [
            0, 0, 0, 0, 0, 0, 0, 0, 0, 0, 0, 0, 45, 0, 0, 0, 15, 60, 39, 0, 0, 0, 0, 54, 60,
        ];
        for (engine, looks) in [(shelve as Engine, 2), (crate::scan::shelve, 0)] {
            let (mut answers, mut units) = stream.rows();
            let result = engine(stream.bytes(), &mut answers, &mut units);
            assert_eq!((&answers[..], &units[..]), (&words[..], &free[..]));
            assert_eq!(result, looks << 32 | 2);
        }
        // Cut short, they are refused as a whole.
        let refused_at = |len: usize| shelve(&stream.bytes()[..len], &mut [0; 9], &mut [0; 9]);
        assert_eq!(refused_at(18), refused(3, 10));
        assert_eq!(refused_at(19 + 4 * 9 + 6), refused(3, 19 + 4 * 9));
    }

    #[test]
    fn a_switch_to_no_production_is_refused() {
        let shelved = |stream: &[u8]| shelve(stream, &mut [0; 2], &mut [0; 2]);
        let mut stream = StreamBuilder::open(60, 3, 6);
        stream.switch(1).switch(2);
        assert_eq!(shelved(stream.bytes()), refused(18, 10));
        assert_eq!(shelved(&stream.bytes()[..11]), refused(3, 10));
        assert_eq!(shelve(stream.bytes(), &mut [], &mut []), refused(18, 10));
    }

    #[test]
    fn either_opening_is_read_once() {
        let openings = [
            StreamBuilder::open(60, 2, 6),
            StreamBuilder::open_with_trailer(60, 2, 6, 0x0303),
        ];
        let shelved = |stream: &[u8]| shelve(stream, &mut [0; 2], &mut [0; 2]);
        for opening in openings.each_ref() {
            for cut in 1..opening.bytes().len() {
                assert_eq!(shelved(&opening.bytes()[..cut]), refused(3, 0));
            }
            assert_eq!(shelved(opening.bytes()), 0);
            let mut counted = opening.clone();
            let counted = counted.count().bytes();
            assert_eq!(shelved(counted), 0);
            for second in openings.each_ref().map(StreamBuilder::bytes) {
                for cut in 1..=second.len() {
                    let stream = [counted, &second[..cut]].concat();
                    assert_eq!(shelved(&stream), refused(4, counted.len()));
                }
            }
            let mut other = opening.bytes().to_vec();
            other[0] = 0x10;
            assert_eq!(shelved(&other), refused(1, 0));
        }
    }

    #[test]
    fn the_trailer_is_added_exactly() {
        for (trailer, sizes, expected) in [
            (0, [0, 60, 61, u32::MAX], [0x8008, 1, 0x8009, 0x8009]),
            (1, [0, u32::MAX, 60, 59], [0x8008, 0x8009, 0x8009, 1]),
            (5, [0, 56, 55, u32::MAX - 4], [0x8008, 0x8009, 1, 0x8009]),
            (60, [1, 0, u32::MAX, 60], [0x8009, 0x8008, 0x8009, 0x8009]),
            (
                65_535,
                [0, 1, u32::MAX, 4_294_901_761],
                [0x8008, 0x8009, 0x8009, 0x8009],
            ),
        ] {
            let mut stream = StreamBuilder::open_with_trailer(60, 2, 6, trailer);
            sizes.iter().for_each(|&size| {
                stream.shelve(size);
            });
            let opened = u64::from(expected.contains(&1));
            for (engine, looks) in [(shelve as Engine, opened), (crate::scan::shelve, 0)] {
                let (mut words, mut free) = stream.rows();
                let result = engine(stream.bytes(), &mut words, &mut free);
                let totals = looks << 32 | opened << 16 | opened;
                assert_eq!((result, &words[..]), (totals, &expected[..]));
                assert_eq!(free, [0; 4]);
            }
        }
    }

    #[test]
    fn a_look_is_counted_at_each_level() {
        for stock in 1..=MAX_LEAVES as u16 {
            let mut stream = StreamBuilder::open(60, stock, 6);
            let looks = |stream: &StreamBuilder| {
                let (mut words, mut free) = stream.rows();
                shelve(stream.bytes(), &mut words, &mut free) >> 32
            };
            stream.shelve(0).shelve(61).count();
            assert_eq!(looks(&stream), 0);
            // In the second production the first fits nowhere, the next does.
            stream.switch(Production::Second).shelve(20);
            assert_eq!(looks(&stream), 1);
            stream.shelve(20).switch(Production::First).shelve(60);
            let most = shelf::most_looks(stock).into();
            assert_eq!(looks(&stream), most, "stock {stock}");
        }
    }

    #[test]
    fn the_walk_is_that_of_the_request() {
        for mix in &MIXES {
            let shelved = shelved(mix);
            let mut bins = [0; 2];
            for (production, _, answer) in shelved.answers() {
                let bins = &mut bins[production];
                match answer {
                    Answer::Placed { bin, .. } => *bins = bin.max(*bins),
                    Answer::Counted { opened } => assert_eq!(opened, *bins, "{}", mix.name),
                    Answer::Withdrawn { .. }
                    | Answer::Settled { .. }
                    | Answer::Switched(_)
                    | Answer::Refused(_) => {}
                }
            }
            // The first rows are those of a smaller stock.
            for (rows, bins) in shelved.rows.iter().zip(bins) {
                for stock in 1..=MAX_LEAVES as u32 {
                    let figure = stock.min(bins.into());
                    let expected = (figure, stock.min(figure + 1));
                    let walked = walk(rows, stock as usize);
                    assert_eq!(walked, expected, "{}, stock {stock}", mix.name);
                }
            }
        }
    }
}
