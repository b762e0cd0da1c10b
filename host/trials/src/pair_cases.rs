//! The cases of pairing by name, their answers written out from the request. Most
//! tell a wrong reading of it from the right one.

use crate::cases::Cases;
use crate::pairing::PairTrial;
use crate::pm::Pairs;
use crate::wire::MOST_CAPACITY;

/// Two rows, and the sound of each picture.
struct Rows {
    name: &'static str,
    capacity: u32,
    /// Each picture with its answer.
    answered: &'static [(u32, u16)],
    sounds: &'static [u32],
    pairs: usize,
}

const ROWS: [Rows; 19] = [
    Rows {
        name: "no pictures and no sounds",
        capacity: 60,
        answered: &[],
        sounds: &[],
        pairs: 0,
    },
    Rows {
        name: "no pictures",
        capacity: 60,
        answered: &[],
        sounds: &[20, 10],
        pairs: 0,
    },
    Rows {
        name: "no sounds",
        capacity: 60,
        answered: &[(20, 0), (10, 0)],
        sounds: &[],
        pairs: 0,
    },
    Rows {
        name: "just full",
        capacity: 60,
        answered: &[(20, 1)],
        sounds: &[40],
        pairs: 1,
    },
    Rows {
        name: "one unit too many",
        capacity: 60,
        answered: &[(20, 0)],
        sounds: &[41],
        pairs: 0,
    },
    Rows {
        name: "the least capacity holds no pair",
        capacity: 1,
        answered: &[(1, 0)],
        sounds: &[1],
        pairs: 0,
    },
    // 10 takes 38, 22 takes 30, 35 takes 25 and 40 takes 20; 55 fits beside none.
    Rows {
        name: "the smallest first, the answers in the order of the row",
        capacity: 60,
        answered: &[(35, 5), (22, 1), (40, 2), (10, 4)],
        sounds: &[30, 20, 55, 38, 25],
        pairs: 4,
    },
    // 30 takes the 30, and 45 finds none.
    Rows {
        name: "it ends with the first picture that finds none",
        capacity: 60,
        answered: &[(50, 0), (30, 1), (45, 0)],
        sounds: &[30, 20],
        pairs: 1,
    },
    // The 55 fits beside neither.
    Rows {
        name: "a sound that is too large is passed over",
        capacity: 60,
        answered: &[(10, 2), (20, 3)],
        sounds: &[55, 45, 40],
        pairs: 2,
    },
    Rows {
        name: "of equal pictures the earlier comes first",
        capacity: 60,
        answered: &[(30, 2), (30, 3), (30, 1), (30, 0)],
        sounds: &[10, 30, 20],
        pairs: 3,
    },
    Rows {
        name: "of equal sounds the later is used first",
        capacity: 60,
        answered: &[(20, 2), (10, 3), (30, 1)],
        sounds: &[30, 30, 30],
        pairs: 3,
    },
    Rows {
        name: "equal pictures and equal sounds",
        capacity: 60,
        answered: &[(30, 3), (30, 2), (30, 1), (30, 0)],
        sounds: &[30, 30, 30],
        pairs: 3,
    },
    Rows {
        name: "two sizes in either row",
        capacity: 60,
        answered: &[(30, 3), (20, 4), (30, 1), (20, 2)],
        sounds: &[30, 40, 30, 40],
        pairs: 4,
    },
    // So the 10 would take the 10, and the 50 find none.
    Rows {
        name: "misreading: the smallest sound that fits",
        capacity: 60,
        answered: &[(10, 2), (50, 1)],
        sounds: &[10, 50],
        pairs: 2,
    },
    // So the 30 would take the 30.
    Rows {
        name: "misreading: pictures from the largest",
        capacity: 60,
        answered: &[(30, 2), (20, 1)],
        sounds: &[30, 10],
        pairs: 2,
    },
    // So the 50 would end it at once.
    Rows {
        name: "misreading: pictures in the order of the row",
        capacity: 60,
        answered: &[(50, 0), (40, 1), (30, 2)],
        sounds: &[20, 30],
        pairs: 2,
    },
    Rows {
        name: "more sounds than pictures",
        capacity: 60,
        answered: &[(59, 3)],
        sounds: &[1, 1, 1, 60, 2],
        pairs: 1,
    },
    Rows {
        name: "more pictures than sounds",
        capacity: 60,
        answered: &[(5, 0), (4, 0), (3, 0), (2, 1), (1, 2)],
        sounds: &[55, 58],
        pairs: 2,
    },
    Rows {
        name: "the largest numbers",
        capacity: MOST_CAPACITY,
        answered: &[
            (MOST_CAPACITY, 0),
            (1, 2),
            (MOST_CAPACITY - 1, 3),
            (MOST_CAPACITY / 2, 4),
        ],
        sounds: &[MOST_CAPACITY, MOST_CAPACITY - 1, 1, MOST_CAPACITY / 2],
        pairs: 3,
    },
];

fn trial(pictures: &[u32], sounds: &[u32], capacity: u32, lent: usize) -> PairTrial {
    PairTrial {
        kind: "case",
        pictures: pictures.to_vec(),
        sounds: sounds.to_vec(),
        capacity,
        lent,
        fill: 1,
    }
}

/// Rows that are accepted with these answers, the lent row just long enough or longer.
fn accepted(
    cases: &mut Cases,
    name: &str,
    (pictures, sounds): (&[u32], &[u32]),
    capacity: u32,
    answers: &[u16],
) {
    let pairs = answers.iter().filter(|&&sound| sound > 0).count();
    for behind in [0, 1, 5] {
        let trial = trial(pictures, sounds, capacity, pictures.len() + behind);
        cases.accepted_rows(name, &trial, answers, Pairs(pairs));
    }
}

pub fn run(cases: &mut Cases) {
    for rows in &ROWS {
        let (pictures, answers): (Vec<u32>, Vec<u16>) = rows.answered.iter().copied().unzip();
        let both = (&pictures[..], rows.sounds);
        accepted(cases, rows.name, both, rows.capacity, &answers);
        let above_0 = answers.iter().filter(|&&sound| sound > 0).count();
        cases.check(rows.name, rows.pairs == above_0, || "its pairs".to_string());
    }
    long_rows(cases);
    places(cases);
    order(cases);
}

/// 4,095 and 4,096 pictures and sounds: equal, rising and falling, with all paired,
/// half of them and none; and one beside so many.
fn long_rows(cases: &mut Cases) {
    for len in [4095, 4096_u16] {
        let equal = |size: u32| vec![size; len.into()];
        let rising: Vec<u32> = (1..=len.into()).collect();
        let falling: Vec<u32> = rising.iter().rev().copied().collect();
        let first: Vec<u16> = (1..=len).collect();
        let last: Vec<u16> = first.iter().rev().copied().collect();
        let none = vec![0; len.into()];
        let all = u32::from(len) + 1;
        let mut long = |what: &str, both: (&[u32], &[u32]), capacity: u32, answers: &[u16]| {
            let name = format!("{len} pictures, sounds or both: {what}");
            accepted(cases, &name, both, capacity, answers);
        };
        long("all fit", (&equal(3), &equal(4)), 7, &last);
        long("none fits", (&equal(4), &equal(4)), 7, &none);
        long("both rising", (&rising, &rising), all, &last);
        long("sounds rising", (&falling, &rising), all, &first);
        long("pictures rising", (&rising, &falling), all, &first);
        long("both falling", (&falling, &falling), all, &last);
        // The smaller half of the pictures with the smaller half of the sounds.
        let half = len / 2;
        let larger: Vec<u32> = rising.iter().map(|size| size + u32::from(len)).collect();
        let beside = |place: &u16| (half + 1).saturating_sub(*place);
        let paired: Vec<u16> = first.iter().map(beside).collect();
        let capacity = u32::from(2 * len + half + 1);
        long("half fit", (&larger, &larger), capacity, &paired);
        long("one picture", (&[1], &equal(6)), 7, &[len]);
        let mut first_alone = none.clone();
        first_alone[0] = 1;
        long("one sound", (&equal(6), &[1]), 7, &first_alone);
        long("no sound", (&rising, &[]), all, &none);
        long("no picture", (&[], &rising), all, &[]);
    }
}

/// Each refusal by itself, with its place.
fn places(cases: &mut Cases) {
    for capacity in [0, MOST_CAPACITY + 1, u32::MAX] {
        let name = "refusal 11, whatever the sizes";
        cases.refused_rows(name, &trial(&[], &[], capacity, 0), 11, 0);
        cases.refused_rows(name, &trial(&[1, 2], &[1], capacity, 2), 11, 0);
    }
    for len in [4097, 5000, 8193] {
        let name = "refusal 12 for either row";
        for (pictures, sounds) in [(len, 0), (len, 3), (0, len), (3, len), (len, len)] {
            let (pictures, sounds) = (vec![1; pictures], vec![1; sounds]);
            let trial = trial(&pictures, &sounds, 60, pictures.len());
            cases.refused_rows(name, &trial, 12, 0);
        }
    }
    for bad in [0, 61, MOST_CAPACITY + 1, u32::MAX] {
        for place in [1, 2, 100, 4096] {
            let (good, mut wrong) = (vec![60; 4096], vec![60; 4096]);
            wrong[place - 1] = bad;
            for len in [0, 1, 4096] {
                let name = "refusal 13 at the picture";
                let after = trial(&wrong, &good[..len], 60, 4096);
                cases.refused_rows(name, &after, 13, place);
                let name = "refusal 13 at the sound, counted on after the pictures";
                let before = trial(&good[..len], &wrong, 60, len);
                cases.refused_rows(name, &before, 13, len + place);
            }
            // The first counts, and a picture before any sound.
            let name = "refusal 13 at the first";
            for other in [0, u32::MAX] {
                wrong[4095] = if place < 4096 { other } else { bad };
                cases.refused_rows(name, &trial(&wrong, &wrong, 60, 4096), 13, place);
                cases.refused_rows(name, &trial(&wrong, &[other], 60, 4096), 13, place);
                cases.refused_rows(name, &trial(&good, &wrong, 60, 4096), 13, 4096 + place);
            }
        }
    }
    for (len, lent) in [(1, 0), (2, 1), (9, 0), (4096, 4095), (4096, 0)] {
        for sounds in [0, 1, len] {
            let trial = trial(&vec![60; len], &vec![60; sounds], 60, lent);
            cases.refused_rows("refusal 22", &trial, 22, 0);
        }
    }
}

/// Any of the conditions at once: the first in the order 11, 12, 13, 22 decides,
/// whichever row it is in.
fn order(cases: &mut Cases) {
    let name = "the order 11, 12, 13, 22";
    for faults in 1..16_u32 {
        let [capacity, length, size, words] = [0, 1, 2, 3].map(|bit| faults >> bit & 1 == 1);
        for (long_row, bad_row) in [(0, 0), (0, 1), (1, 0), (1, 1)] {
            let mut rows =
                [0, 1].map(|row| vec![60; if length && row == long_row { 4097 } else { 9 }]);
            if size {
                rows[bad_row][4] = 0;
                rows[bad_row][6] = u32::MAX;
            }
            let [pictures, sounds] = &rows;
            let lent = pictures.len() - usize::from(words);
            for outside in [0, MOST_CAPACITY + 1] {
                let capacity_given = if capacity { outside } else { 60 };
                let trial = trial(pictures, sounds, capacity_given, lent);
                let (number, at) = match (capacity, length, size) {
                    (true, ..) => (11, 0),
                    (_, true, _) => (12, 0),
                    (_, _, true) => (13, 9 * bad_row + 5),
                    _ => (22, 0),
                };
                cases.refused_rows(name, &trial, number, at);
            }
        }
    }
}
