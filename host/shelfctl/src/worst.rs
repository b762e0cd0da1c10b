//! The list that does worst for a number of cartridges, and its plan, as texts:
//! the lists of crates/worst_lists, which are proved to open the most that are
//! ever opened.

use std::fmt::Write as _;

use shelf::{most_opened, MAX_STOCK};

const QUARTER: u32 = 250_000;
const CAPACITY: u32 = 4 * QUARTER + 1;
/// An A, a B1 and a B2, as small as they can be.
const HALF: u32 = 2 * QUARTER + 1;
const B1: u32 = 2 * CAPACITY / 5 + 1;
const B2: u32 = CAPACITY / 3 + 1;
/// The outermost distance from a quarter.
const LEVELS: u32 = 7;

/// The masters, in the order of sending, each with its cartridge in a plan.
pub struct Worst {
    k: u32,
    masters: Vec<(u32, u32)>,
}

impl Worst {
    /// For `k` cartridges, from 1 to the largest stock: fewer do not hold them.
    pub fn of(k: u32) -> Self {
        let besides = besides(u32::from(most_opened(k)) - k);
        let mut masters: Vec<(u32, u32)> = (1..=k).map(|bin| (HALF, bin)).collect();
        // The n-th above a quarter and the n-th below it lie with the n-th half.
        let (mut above, mut below) = (0, 0);
        masters.extend(besides.into_iter().map(|size| {
            let side = if size > QUARTER {
                &mut above
            } else {
                &mut below
            };
            *side += 1;
            (size, *side)
        }));
        Self { k, masters }
    }

    /// The commands, as a text.
    pub fn commands(&self) -> String {
        let (k, opened) = (self.k, most_opened(self.k));
        let mut text = format!("# {k} could hold these masters; {opened} are opened.\n");
        text += &format!("open {CAPACITY} {MAX_STOCK} 6\n");
        for (size, _) in &self.masters {
            writeln!(text, "shelve {size}").expect("a string takes all");
        }
        text
    }

    /// The plan, as a text for `shelfctl check`.
    pub fn plan(&self) -> String {
        let mut text = format!("plan {CAPACITY} {}\n", self.k);
        for (size, bin) in &self.masters {
            writeln!(text, "put {size} {bin}").expect("a string takes all");
        }
        text
    }
}

/// Masters of at most a half with which so many more cartridges are opened.
fn besides(opened: u32) -> Vec<u32> {
    let rest = |size| CAPACITY - HALF - size;
    match opened {
        0 => vec![],
        1 => near_quarter(1),
        2 => vec![B2, rest(B2)],
        _ => {
            let pairs = (3 * (opened - 3) + 1) / 2;
            let mut sizes = vec![B1, B2, rest(B1), rest(B2)];
            sizes.extend(near_quarter(pairs as usize));
            sizes
        }
    }
}

/// So many pairs near a quarter, in levels: three fill a cartridge, and no later
/// one goes in with them.
fn near_quarter(pairs: usize) -> Vec<u32> {
    let distance = |level| 2 * 3u32.pow(level) - 1;
    let mut sizes = vec![QUARTER - distance(LEVELS); pairs.min(2)];
    let (mut below, mut above) = (pairs.saturating_sub(2), pairs);
    let mut most = 2;
    for level in (0..LEVELS).rev() {
        let triples = (below / 2).min(most);
        let low = QUARTER - distance(level);
        let triple = [QUARTER + distance(level + 1), low, low];
        sizes.extend(triple.repeat(triples));
        below -= 2 * triples;
        above -= triples;
        most = 2 * triples;
    }
    sizes.extend(vec![QUARTER - 1; below]);
    sizes.extend(vec![QUARTER + 1; above]);
    sizes
}

#[cfg(test)]
mod tests {
    use super::*;
    use shelf::{Entry, StreamBuilder};

    /// By the library, for every number of cartridges and every m.
    #[test]
    fn every_list_opens_the_most_and_its_plan_passes() {
        for k in 1..=u32::from(MAX_STOCK) {
            let worst = Worst::of(k);
            for m in shelf::MIN_M..=shelf::MAX_M {
                let mut stream = StreamBuilder::open(CAPACITY, MAX_STOCK, m);
                for &(size, _) in &worst.masters {
                    stream.shelve(size);
                }
                let (mut words, mut free) = stream.rows();
                let totals = shelf::shelve(stream.bytes(), &mut words, &mut free);
                let totals = totals.expect("the stream is accepted");
                assert_eq!(totals.items as usize, worst.masters.len(), "{k}");
                assert_eq!(totals.opened, most_opened(k), "{k}");
            }
            let entries = worst.masters.iter().map(|&(size, bin)| Entry { size, bin });
            let entries: Vec<Entry> = entries.collect();
            let sizes: Vec<u32> = worst.masters.iter().map(|&(size, _)| size).collect();
            assert_eq!(shelf::check_plan(&entries, &sizes, CAPACITY, k), Ok(()));
            let used = worst.masters.iter().map(|&(_, bin)| bin).max();
            assert_eq!(used, Some(k));
        }
    }
}
