//! The cases of repacking by name, their answers written out from the request. Most
//! tell a wrong reading of it from the right one.

use crate::cases::Cases;
use crate::decreasing::Repacked;
use crate::repacking::RepackTrial;
use crate::wire::MOST_CAPACITY;

/// A row, and where each of its sizes goes.
struct Row {
    name: &'static str,
    capacity: u32,
    /// Each size with its answer.
    answered: &'static [(u32, u16)],
    count: usize,
}

const ROWS: [Row; 11] = [
    Row {
        name: "no sizes",
        capacity: 60,
        answered: &[],
        count: 0,
    },
    Row {
        name: "one size",
        capacity: 1,
        answered: &[(1, 1)],
        count: 1,
    },
    Row {
        name: "the largest first, the answers in the order of the row",
        capacity: 60,
        answered: &[(20, 1), (35, 2), (40, 1), (25, 2)],
        count: 2,
    },
    // The other way round 10, 20 and 30 would go together, and four be opened.
    Row {
        name: "misreading: the smallest first",
        capacity: 60,
        answered: &[(10, 1), (20, 2), (30, 3), (40, 2), (50, 1), (30, 3)],
        count: 3,
    },
    // Each of the equal ones opens a bin, or fills it up, before the next.
    Row {
        name: "equal sizes in the order of the row",
        capacity: 60,
        answered: &[(31, 1), (29, 1), (31, 2), (29, 2), (31, 3)],
        count: 3,
    },
    Row {
        name: "equal sizes, some to a cartridge",
        capacity: 60,
        answered: &[
            (20, 1),
            (20, 1),
            (20, 1),
            (20, 2),
            (20, 2),
            (20, 2),
            (20, 3),
        ],
        count: 3,
    },
    // The 7 finds 20, 7 and 30 units free: best fit would put it in 2, worst in 3.
    Row {
        name: "misreading: another fit than the first",
        capacity: 60,
        answered: &[(7, 1), (40, 1), (31, 2), (30, 3), (22, 2)],
        count: 3,
    },
    // By the classes of the shelf a B2 would not lie beside an A, nor an X beside a B1.
    Row {
        name: "misreading: several classes",
        capacity: 60,
        answered: &[
            (22, 1),
            (38, 1),
            (30, 2),
            (20, 3),
            (30, 2),
            (20, 3),
            (10, 3),
        ],
        count: 3,
    },
    // An exact fit is one: 60 and 0, 59 and 1.
    Row {
        name: "just full",
        capacity: 60,
        answered: &[(1, 2), (60, 1), (59, 2), (1, 3)],
        count: 3,
    },
    // Two would do: 4, 3, 3 and 4, 3, 3.
    Row {
        name: "three for two, as bad as it gets",
        capacity: 10,
        answered: &[(3, 2), (4, 1), (3, 2), (3, 2), (4, 1), (3, 3)],
        count: 3,
    },
    Row {
        name: "the largest numbers",
        capacity: MOST_CAPACITY,
        answered: &[
            (1, 2),
            (MOST_CAPACITY, 1),
            (MOST_CAPACITY - 1, 2),
            (MOST_CAPACITY / 2, 4),
            (MOST_CAPACITY / 2, 4),
            (MOST_CAPACITY / 2 + 1, 3),
        ],
        count: 4,
    },
];

/// What a row is lent with so many words besides, and an old count.
fn trial(sizes: &[u32], capacity: u32, old: u32, lent: usize) -> RepackTrial {
    RepackTrial {
        kind: "case",
        sizes: sizes.to_vec(),
        capacity,
        old,
        known: None,
        lent,
        fill: 1,
    }
}

/// A row that is accepted with these answers, with the old count that would just
/// save nothing and one more, and with the lent row just long enough or longer.
fn accepted(cases: &mut Cases, name: &str, sizes: &[u32], capacity: u32, answers: &[u16]) {
    let count = answers.iter().copied().max().unwrap_or(0);
    for (saves, behind) in [(0, 0), (1, 1), (0, 5)] {
        let old = u32::from(count) + saves;
        let trial = trial(sizes, capacity, old, sizes.len() + behind);
        let repacked = Repacked {
            count: count.into(),
            saves_nothing: saves == 0,
        };
        cases.accepted_rows(name, &trial, answers, repacked);
    }
}

pub fn run(cases: &mut Cases) {
    for row in &ROWS {
        let (sizes, answers): (Vec<u32>, Vec<u16>) = row.answered.iter().copied().unzip();
        accepted(cases, row.name, &sizes, row.capacity, &answers);
        let greatest = answers.iter().max().map_or(0, |&bin| bin.into());
        cases.check(row.name, row.count == greatest, || "its count".to_string());
    }
    long_rows(cases);
    old_counts(cases);
    places(cases);
    order(cases);
}

/// 4,095 and 4,096 sizes: each in its bin, two to a bin, all in one, and in the order
/// that they are packed in or against it.
fn long_rows(cases: &mut Cases) {
    for len in [4095, 4096_usize] {
        let numbers = 0..len as u16;
        let each: Vec<u16> = numbers.clone().map(|i| i + 1).collect();
        let name = format!("{len} sizes, a cartridge each");
        accepted(cases, &name, &vec![7; len], 7, &each);
        let pairs: Vec<u16> = numbers.clone().map(|i| i / 2 + 1).collect();
        let name = format!("{len} sizes, two to a cartridge");
        accepted(cases, &name, &vec![3; len], 7, &pairs);
        let name = format!("{len} sizes in one cartridge");
        accepted(cases, &name, &vec![1; len], MOST_CAPACITY, &vec![1; len]);
        // All above a half, so that the n-th largest opens the n-th.
        let rising: Vec<u32> = (0..len as u32).map(|i| 10_000 + i).collect();
        let falling: Vec<u32> = rising.iter().rev().copied().collect();
        let last_first: Vec<u16> = each.iter().rev().copied().collect();
        let name = format!("{len} sizes that fall");
        accepted(cases, &name, &falling, 20_000 - 1, &each);
        let name = format!("{len} sizes that rise");
        accepted(cases, &name, &rising, 20_000 - 1, &last_first);
    }
}

/// Exactly if the new count is not below the old one, the move saves nothing; the old
/// count has no limit.
fn old_counts(cases: &mut Cases) {
    for (sizes, answers) in [(&[][..], &[][..]), (&[60], &[1]), (&[60, 60], &[1, 2])] {
        let count = sizes.len();
        for (old, saves_nothing) in [
            (0, true),
            (1, count >= 1),
            (2, count >= 2),
            (3, false),
            (4096, false),
            (4097, false),
            (65_536, false),
            (u32::MAX, false),
        ] {
            let trial = trial(sizes, 60, old, count);
            let repacked = Repacked {
                count,
                saves_nothing,
            };
            cases.accepted_rows("what saves nothing", &trial, answers, repacked);
        }
    }
}

/// Each refusal by itself, with its place.
fn places(cases: &mut Cases) {
    for capacity in [0, MOST_CAPACITY + 1, u32::MAX] {
        let name = "refusal 11, whatever the sizes";
        cases.refused_rows(name, &trial(&[], capacity, 0, 0), 11, 0);
        cases.refused_rows(name, &trial(&[1, 2], capacity, 0, 2), 11, 0);
    }
    for len in [4097, 5000, 8193] {
        let name = "refusal 12 for the row";
        cases.refused_rows(name, &trial(&vec![1; len], 60, 0, len), 12, 0);
    }
    for bad in [0, 61, MOST_CAPACITY + 1, u32::MAX] {
        for place in [1, 2, 100, 4096] {
            let mut sizes = vec![60; 4096];
            sizes[place - 1] = bad;
            let name = "refusal 13 at the size";
            cases.refused_rows(name, &trial(&sizes, 60, 0, 4096), 13, place);
            // It is the first that counts, not the largest or the smallest.
            sizes[4095] = 0;
            cases.refused_rows(name, &trial(&sizes, 60, 0, 4096), 13, place);
            sizes[4095] = u32::MAX;
            cases.refused_rows(name, &trial(&sizes, 60, 0, 4096), 13, place);
        }
    }
    for (len, lent) in [(1, 0), (2, 1), (9, 0), (4096, 4095), (4096, 0)] {
        let name = "refusal 22";
        cases.refused_rows(name, &trial(&vec![60; len], 60, 0, lent), 22, 0);
    }
}

/// Any of the conditions at once: the first in the order 11, 12, 13, 22 decides.
fn order(cases: &mut Cases) {
    for faults in 1..16_u32 {
        let [capacity, length, size, words] = [0, 1, 2, 3].map(|bit| faults >> bit & 1 == 1);
        let mut sizes = vec![60; if length { 4097 } else { 9 }];
        if size {
            sizes[4] = 0;
            sizes[6] = u32::MAX;
        }
        let lent = if words { sizes.len() - 1 } else { sizes.len() };
        for outside in [0, MOST_CAPACITY + 1] {
            let capacity = if capacity { outside } else { 60 };
            let trial = trial(&sizes, capacity, 3, lent);
            let (number, at) = match (faults & 1, length, size) {
                (1, ..) => (11, 0),
                (_, true, _) => (12, 0),
                (_, _, true) => (13, 5),
                _ => (22, 0),
            };
            cases.refused_rows("the order 11, 12, 13, 22", &trial, number, at);
        }
    }
}
