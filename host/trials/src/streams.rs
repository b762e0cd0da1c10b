//! Random stream trials: streams as they are, and damaged ones.

use crate::lists::{b2_run, counted, family, list, long, random_opening, short_list};
use crate::rng::Rng;
use crate::rows::Lent;
use crate::wire::{
    Command, LEAST_M, MOST_CAPACITY, MOST_COMMANDS, MOST_M, MOST_PRINTED, MOST_STOCK,
};

/// The kind of the streams that are made for counting.
pub const COUNTS: &str = "counts";

/// A stream and the rows lent with it.
#[derive(Clone)]
pub struct StreamTrial {
    pub kind: &'static str,
    pub stream: Vec<u8>,
    /// The lengths of the lent rows.
    pub lent: Lent,
    /// What the rows and the words around them hold before the call.
    pub fill: u64,
}

pub fn random(rng: &mut Rng) -> StreamTrial {
    let (kind, pieces) = match rng.between(0, 99) {
        0..=29 => ("short list", short_list(rng).pieces()),
        30..=49 => ("list", list(rng, 80).pieces()),
        50..=57 => ("B2 with a small stock", b2_run(rng).pieces()),
        58..=64 => ("family", family(rng).pieces()),
        65..=66 => ("4,096 commands", long(rng).pieces()),
        67..=71 => ("noise", vec![noise(rng)]),
        72..=75 => ("opening", damaged_opening(rng)),
        76..=78 => ("at the limit of commands", around_the_limit(rng)),
        79 => ("at the limit of bytes", vec![around_the_longest(rng)]),
        80..=84 => (COUNTS, counted(rng).pieces()),
        _ => ("damaged", damaged(rng)),
    };
    lent(rng, kind, pieces)
}

/// The stream of these pieces, with rows of any lengths.
pub fn lent(rng: &mut Rng, kind: &'static str, pieces: Vec<Vec<u8>>) -> StreamTrial {
    let after = pieces.len().saturating_sub(1);
    let mut lent = Lent::both(random_length(rng, after));
    if rng.chance(50) {
        lent.free = random_length(rng, after);
    }
    StreamTrial {
        kind,
        stream: pieces.concat(),
        lent,
        fill: rng.word(),
    }
}

/// The length of a row that is lent for so many answers.
pub fn random_length(rng: &mut Rng, after: usize) -> usize {
    match rng.between(0, 19) {
        0..=7 => after,
        8..=10 => after + rng.place(9),
        11..=12 => after.saturating_sub(1),
        13 => 0,
        14 => rng.place(after + 1),
        15..=16 => MOST_COMMANDS,
        17 => MOST_COMMANDS - 1,
        _ => MOST_COMMANDS + 1 + rng.place(100),
    }
}

fn noise(rng: &mut Rng) -> Vec<u8> {
    let mut bytes = if rng.chance(50) {
        random_opening(rng).bytes()
    } else {
        Vec::new()
    };
    for _ in 0..rng.between(0, 30) {
        bytes.push(if rng.chance(70) {
            rng.pick(&[0, 1, 1, 2, 3, 3, 4, 5, 6, 7, 0x11])
        } else {
            rng.word() as u8
        });
    }
    bytes
}

/// An opening operand outside its limits, or at them.
fn odd_opening(rng: &mut Rng) -> Vec<u8> {
    let mut opening = random_opening(rng);
    for _ in 0..rng.between(1, 2) {
        match rng.between(0, 2) {
            0 => opening.capacity = rng.pick(&[0, 1, MOST_CAPACITY, MOST_CAPACITY + 1, u32::MAX]),
            1 => opening.stock = rng.pick(&[0, 1, MOST_STOCK, MOST_STOCK + 1, u16::MAX]),
            _ => opening.m = rng.pick(&[0, LEAST_M - 1, LEAST_M, MOST_M, MOST_M + 1, u8::MAX]),
        }
    }
    opening.bytes()
}

fn damaged_opening(rng: &mut Rng) -> Vec<Vec<u8>> {
    let mut bytes = odd_opening(rng);
    match rng.between(0, 3) {
        0 => bytes.truncate(rng.place(bytes.len())),
        1 => bytes[0] = rng.pick(&[0, 1, 2, 3, 4, 5, 6, 7, 0x0B, 0x10, 0x11, 0x11, 255]),
        _ => {}
    }
    let mut pieces = vec![bytes];
    if rng.chance(60) {
        pieces.extend(list(rng, 5).pieces().split_off(1));
        damage(rng, &mut pieces);
    }
    pieces
}

/// Up to two more commands than are allowed, with faults there.
fn around_the_limit(rng: &mut Rng) -> Vec<Vec<u8>> {
    let near = |rng: &mut Rng| MOST_COMMANDS - 2 + rng.place(5);
    let mut pieces = list(rng, 20).pieces();
    pieces.resize(1 + near(rng), Command::Count.bytes());
    for _ in 0..rng.between(0, 2) {
        let place = near(rng);
        let odd = odd_command(rng);
        match pieces.get_mut(place) {
            Some(piece) => *piece = odd,
            None => pieces.push(odd),
        }
    }
    if rng.chance(10) {
        damage(rng, &mut pieces);
    }
    pieces
}

/// About as many bytes as are printed at most, a fault among them.
fn around_the_longest(rng: &mut Rng) -> Vec<u8> {
    let mut bytes = list(rng, 20).bytes();
    let fill = rng.pick(&[0, 1, 2, 3, 5, 6, 7, 0x11]);
    bytes.resize(MOST_PRINTED - 4 + rng.place(7), fill);
    bytes
}

/// What a faulty command looks like.
fn odd_command(rng: &mut Rng) -> Vec<u8> {
    match rng.between(0, 6) {
        0..=1 => vec![rng.pick(&[0, 8, 9, 0x0B, 0x10, 0x12, 0x80, 0x86, 255])],
        2 => {
            let shelve = Command::Shelve(rng.word() as u32);
            let withdraw = Command::Withdraw(rng.word() as u16);
            let switch = Command::Switch(rng.word() as u8);
            let reserve = Command::Reserve(rng.word() as u32, rng.word() as u32);
            let settle = Command::Settle(rng.word() as u16, rng.word() as u32);
            let commands = [shelve, withdraw, switch, reserve, settle];
            let bytes = rng.pick(&commands).bytes();
            cut_short(rng, bytes)
        }
        3 => odd_opening(rng),
        4 => random_opening(rng).bytes(),
        5 => odd_switch(rng).bytes(),
        _ => {
            let bytes = odd_opening(rng);
            cut_short(rng, bytes)
        }
    }
}

/// A switch to what is mostly no production.
pub fn odd_switch(rng: &mut Rng) -> Command {
    Command::Switch(rng.pick(&[0, 1, 2, 2, 3, 5, 0x10, 0x80, 0x81, 254, 255]))
}

/// The command byte, and some of its operands' bytes.
fn cut_short(rng: &mut Rng, mut bytes: Vec<u8>) -> Vec<u8> {
    bytes.truncate(1 + rng.place(bytes.len() - 1));
    bytes
}

pub fn damage(rng: &mut Rng, pieces: &mut Vec<Vec<u8>>) {
    for _ in 0..rng.between(1, 3) {
        match rng.between(0, 9) {
            0..=2 => {
                let place = rng.between(1, pieces.len() as u64) as usize;
                let odd = odd_command(rng);
                pieces.insert(place, odd);
            }
            3 => {
                let place = rng.place(pieces.len());
                if let Some(byte) = pieces[place].first_mut() {
                    *byte = rng.pick(&[0, 1, 2, 3, 4, 5, 6, 7, 0x11, 255]);
                }
            }
            4..=5 => pieces.push(odd_command(rng)),
            6 => pieces[0] = odd_opening(rng),
            // The stream's end cuts its last command short.
            _ => {
                let place = rng.place(pieces.len());
                pieces.truncate(place + 1);
                let keep = rng.place(pieces[place].len() + 1);
                pieces[place].truncate(keep);
            }
        }
    }
}

fn damaged(rng: &mut Rng) -> Vec<Vec<u8>> {
    let mut pieces = list(rng, 12).pieces();
    damage(rng, &mut pieces);
    pieces
}
