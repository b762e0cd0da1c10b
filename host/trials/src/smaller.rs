//! A first difference made small, and shown with both answers.

use std::ops::Range;
use std::time::{Duration, Instant};

use crate::answered::{Given, Parts, RowTrial};
use crate::compare::{by_library, by_paper, plan_by_library, verdict};
use crate::plans::PlanTrial;
use crate::rows::{self, Lent};
use crate::streams::StreamTrial;
use crate::walk::{self, Program};
use crate::wire::{self, Command, Opening, Part, LEAST_M};
use crate::written;

/// Follows smaller trials that still fail, until none does or time is up.
fn shrink<T>(
    mut trial: T,
    smaller: impl Fn(&T) -> Box<dyn Iterator<Item = T> + '_>,
    fails: impl Fn(&T) -> bool,
) -> T {
    let deadline = Instant::now() + Duration::from_secs(5);
    loop {
        let found = smaller(&trial)
            .take_while(|_| Instant::now() < deadline)
            .find(&fails);
        match found {
            Some(smaller) => trial = smaller,
            None => return trial,
        }
    }
}

/// The blocks of a row to leave out, the largest first.
fn blocks(len: usize) -> impl Iterator<Item = Range<usize>> {
    let sizes = std::iter::successors(Some(len), |&size| (size > 1).then_some(size / 2));
    sizes.flat_map(move |size| {
        let starts = (0..len).step_by(size.max(1));
        starts.map(move |start| start..(start + size).min(len))
    })
}

/// Smaller numbers to try in place of this one.
pub fn lower(n: u32) -> impl Iterator<Item = u32> {
    [0, 1, n / 2, n - n / 8, n.saturating_sub(1)]
        .into_iter()
        .filter(move |&lower| lower < n)
}

/// The part with one of its numbers lowered.
fn lowered(part: Part) -> Vec<Part> {
    match part {
        Part::Opening(opening) => {
            let capacities = lower(opening.capacity).map(|capacity| Opening {
                capacity,
                ..opening
            });
            let stocks = lower(opening.stock.into()).map(|stock| Opening {
                stock: stock as u16,
                ..opening
            });
            let ms = (LEAST_M..opening.m).map(|m| Opening { m, ..opening });
            let trailers = opening.trailer.into_iter().flat_map(|trailer| {
                let lower = lower(trailer.into()).map(|trailer| Some(trailer as u16));
                std::iter::once(None).chain(lower)
            });
            let trailers = trailers.map(|trailer| Opening { trailer, ..opening });
            let openings = capacities.chain(stocks).chain(ms).chain(trailers);
            openings.map(Part::Opening).collect()
        }
        Part::Command(Command::Shelve(size)) => {
            let commands = lower(size).map(Command::Shelve);
            commands.map(Part::Command).collect()
        }
        Part::Command(Command::Withdraw(number)) => {
            let commands = lower(number.into()).map(|n| Command::Withdraw(n as u16));
            commands.map(Part::Command).collect()
        }
        Part::Command(Command::Switch(production)) => {
            let commands = lower(production.into()).map(|n| Command::Switch(n as u8));
            commands.map(Part::Command).collect()
        }
        Part::Command(Command::Reserve(least, greatest)) => {
            let leasts = lower(least).map(|n| Command::Reserve(n, greatest));
            let greatests = lower(greatest).map(|n| Command::Reserve(least.min(n), n));
            // An item that does not wait for anything is simpler.
            let plain = [Command::Shelve(greatest)].into_iter();
            let commands = plain.chain(greatests).chain(leasts);
            commands.map(Part::Command).collect()
        }
        Part::Command(Command::Settle(number, size)) => {
            let numbers = lower(number.into()).map(|n| Command::Settle(n as u16, size));
            let sizes = lower(size).map(|n| Command::Settle(number, n));
            numbers.chain(sizes).map(Part::Command).collect()
        }
        _ => Vec::new(),
    }
}

/// The stream with capacity, trailer and sizes divided alike, which keeps most
/// fits.
fn scaled<'a>(parts: &[Part<'a>], by: u32) -> Option<Vec<Part<'a>>> {
    let less = |n: u32| Some(n / by).filter(|&n| n > 0);
    let scaled = parts.iter().map(|&part| {
        Some(match part {
            Part::Opening(opening) => Part::Opening(Opening {
                capacity: less(opening.capacity)?,
                trailer: opening.trailer.map(|n| (u32::from(n) / by) as u16),
                ..opening
            }),
            Part::Command(Command::Shelve(size)) => Part::Command(Command::Shelve(less(size)?)),
            Part::Command(Command::Reserve(least, greatest)) => {
                Part::Command(Command::Reserve(less(least)?, less(greatest)?))
            }
            Part::Command(Command::Settle(number, size)) => {
                Part::Command(Command::Settle(number, less(size)?))
            }
            other => other,
        })
    });
    scaled.collect()
}

/// The parts without a block of them. Where the opening stands before it, a
/// command's number is its place: names of commands behind the block then go on
/// naming them, and those of commands in it name none.
fn without<'a>(mut parts: Vec<Part<'a>>, block: Range<usize>) -> Vec<Part<'a>> {
    let behind = block.end..parts.len();
    for part in &mut parts {
        let Part::Command(command) = part else {
            continue;
        };
        let Some(number) = command.names() else {
            continue;
        };
        let named = usize::from(number);
        if block.contains(&named) {
            *command = command.naming(0);
        } else if behind.contains(&named) {
            *command = command.naming(number - block.len() as u16);
        }
    }
    parts.drain(block);
    parts
}

fn parts(trial: &StreamTrial) -> Vec<Part<'_>> {
    wire::parts(&trial.stream).map(|(_, part)| part).collect()
}

/// The rows with one of them shorter.
fn shorter_rows(Lent { answers, free }: Lent) -> impl Iterator<Item = Lent> {
    let lower = |words: usize| lower(words as u32).map(|words| words as usize);
    let answers_lower = lower(answers).map(move |answers| Lent { answers, free });
    answers_lower.chain(lower(free).map(move |free| Lent { answers, free }))
}

fn smaller_streams(trial: &StreamTrial) -> Box<dyn Iterator<Item = StreamTrial> + '_> {
    let with = |parts: &[Part], lent: Lent| StreamTrial {
        stream: parts.iter().flat_map(Part::bytes).collect(),
        lent,
        ..trial.clone()
    };
    let len = parts(trial).len();
    let dropped = blocks(len).flat_map(move |block| {
        let gone = block.len();
        let kept = without(parts(trial), block);
        // Shorter rows keep their distance from the number of commands.
        let shorter = Lent {
            answers: trial.lent.answers.saturating_sub(gone),
            free: trial.lent.free.saturating_sub(gone),
        };
        [shorter, trial.lent].map(|lent| with(&kept, lent))
    });
    let scales = [100, 10, 2].into_iter();
    let scaled = scales.filter_map(move |by| Some(with(&scaled(&parts(trial), by)?, trial.lent)));
    let shorter_rows = shorter_rows(trial.lent).map(move |lent| with(&parts(trial), lent));
    let lower_numbers = (0..len).flat_map(move |i| {
        let tries = lowered(parts(trial)[i]).into_iter();
        tries.map(move |part| {
            let mut parts = parts(trial);
            parts[i] = part;
            with(&parts, trial.lent)
        })
    });
    let shorter = dropped.chain(scaled).chain(shorter_rows);
    Box::new(shorter.chain(lower_numbers))
}

fn smaller_plans(trial: &PlanTrial) -> Box<dyn Iterator<Item = PlanTrial> + '_> {
    let len = trial
        .sizes
        .len()
        .max(trial.bins.len())
        .max(trial.items.len());
    let dropped = blocks(len).map(|block| {
        let mut smaller = trial.clone();
        for row in [&mut smaller.sizes, &mut smaller.bins, &mut smaller.items] {
            let end = block.end.min(row.len());
            row.drain(block.start.min(end)..end);
        }
        smaller
    });
    let lowered = (0..len).flat_map(move |i| {
        let size = trial.sizes.get(i).copied().unwrap_or(0);
        let sizes = lower(size).map(move |n| {
            let mut smaller = trial.clone();
            smaller.sizes[i] = n;
            if let Some(item) = smaller.items.get_mut(i) {
                *item -= size.min(*item) - n.min(*item);
            }
            smaller
        });
        let bin = trial.bins.get(i).copied().unwrap_or(0);
        let bins = lower(bin).map(move |n| {
            let mut smaller = trial.clone();
            smaller.bins[i] = n;
            smaller
        });
        sizes.chain(bins)
    });
    let capacities = lower(trial.capacity).map(|capacity| PlanTrial {
        capacity,
        ..trial.clone()
    });
    let ks = lower(trial.k).map(|k| PlanTrial { k, ..trial.clone() });
    Box::new(dropped.chain(capacities).chain(ks).chain(lowered))
}

/// The trial with a change to what all of them have.
fn changed<T: RowTrial>(trial: &T, change: impl FnOnce(Parts)) -> T {
    let mut changed = trial.clone();
    change(changed.parts());
    changed
}

/// Rows of sizes with one shorter, or with a smaller number.
pub fn smaller_rows<T: RowTrial>(trial: &T) -> impl Iterator<Item = T> + '_ {
    let Given {
        rows,
        capacity,
        lent,
        ..
    } = trial.given();
    let rows = rows.into_iter().enumerate();
    let blocks = rows.clone().flat_map(|(row, sizes)| {
        let blocks = blocks(sizes.len());
        blocks.map(move |block| (row, block))
    });
    let dropped = blocks.flat_map(move |(row, block)| {
        // The lent row keeps its distance from the number of answers, or its length.
        let lents = [lent.saturating_sub(block.len()), lent];
        let lents = lents.into_iter().skip(usize::from(row > 0));
        lents.map(move |lent| {
            changed(trial, |mut parts| {
                parts.rows[row].drain(block.clone());
                *parts.lent = lent;
            })
        })
    });
    let scaled = [100, 10, 2].into_iter().map(move |by| {
        changed(trial, |parts| {
            *parts.capacity /= by;
            let sizes = parts.rows.into_iter().flatten();
            sizes.for_each(|size| *size /= by);
        })
    });
    let capacities = lower(capacity).map(move |n| changed(trial, |parts| *parts.capacity = n));
    let lents = lower(lent as u32).map(move |n| changed(trial, |parts| *parts.lent = n as usize));
    let sizes = rows.flat_map(|(row, sizes)| {
        let sizes = sizes.iter().enumerate();
        sizes.map(move |(place, &size)| (row, place, size))
    });
    let lowered = sizes.flat_map(move |(row, place, size)| {
        lower(size).map(move |n| changed(trial, |mut parts| parts.rows[row][place] = n))
    });
    let shorter = dropped.chain(scaled).chain(capacities);
    shorter.chain(lents).chain(lowered)
}

/// Shrinks a stream on which `fails` holds and shows it with both answers.
pub fn show_stream(trial: StreamTrial, fails: impl Fn(&StreamTrial) -> bool) -> String {
    let trial = shrink(trial, smaller_streams, fails);
    let (paper, library) = (by_paper(&trial), by_library(&trial));
    format!(
        "stream, {} bytes, lent {} words of answers and {} of free units:\n  {}\n\
         paper:   {paper}\nlibrary: {library}\n\
         paper against library: {}; sheet: {}",
        trial.stream.len(),
        trial.lent.answers,
        trial.lent.free,
        commands_in_hex(&trial),
        rows::difference(&paper.rows, &library.rows),
        written::difference(&paper.sheet, &library.sheet),
    )
}

/// Shrinks a stream of which the program prints other walks than the paper's and
/// shows it with both.
pub fn show_walk(trial: StreamTrial, program: &Program) -> String {
    // No row is lent to the program, so none is to be made shorter.
    let lent = Lent::both(0);
    // What is smaller but makes the program fail shows no difference.
    let differs = |trial: &StreamTrial| program.differs(&trial.stream) == Ok(true);
    let trial = shrink(StreamTrial { lent, ..trial }, smaller_streams, differs);
    let printed = program.prints(&trial.stream).unwrap_or_else(|why| why);
    format!(
        "stream, {} bytes:\n  {}\npaper:   {:?}\nprogram: {printed:?}",
        trial.stream.len(),
        commands_in_hex(&trial),
        walk::by_paper(&trial.stream),
    )
}

/// Shrinks a plan on which `fails` holds and shows it with both answers.
pub fn show_plan(trial: PlanTrial, fails: impl Fn(&PlanTrial) -> bool) -> String {
    let trial = shrink(trial, smaller_plans, fails);
    let library = match plan_by_library(&trial) {
        Some(result) => verdict(result),
        None => "outside the interface, or the two calls differ".to_string(),
    };
    format!(
        "plan, capacity {}, k {}:\n  sizes {:?}\n  bins  {:?}\n  items {:?}\npaper:   {}\nlibrary: {library}",
        trial.capacity,
        trial.k,
        trial.sizes,
        trial.bins,
        trial.items,
        verdict(trial.by_paper()),
    )
}

/// Shrinks rows on which `fails` holds and shows them with both answers.
pub fn show_rows<T: RowTrial>(trial: T, fails: impl Fn(&T) -> bool) -> String {
    let trial = shrink(trial, T::smaller, fails);
    let (paper, library) = (trial.by_paper(), trial.by_library());
    format!(
        "{}\npaper:   {paper}\nlibrary: {library}\npaper against library: {}",
        trial.show(),
        paper.difference(&library),
    )
}

fn commands_in_hex(trial: &StreamTrial) -> String {
    let commands: Vec<String> = parts(trial).iter().map(|part| hex(&part.bytes())).collect();
    commands.join(" ")
}

fn hex(bytes: &[u8]) -> String {
    bytes.iter().map(|byte| format!("{byte:02X}")).collect()
}

#[cfg(test)]
mod tests {
    use super::*;
    use crate::cases::{case, sent};
    use crate::wire::opening;
    use crate::wire::Command::{Count, Reserve, Settle, Shelve, Withdraw};

    #[test]
    fn names_follow_their_commands() {
        names_follow(Withdraw);
        names_follow(|number| Settle(number, 9));
    }

    fn names_follow(naming: fn(u16) -> Command) {
        let named = [1, 2, 3, 4, 5, 9, 65_535].map(naming);
        let commands = [&[Shelve(9), Count, Shelve(8), Shelve(7)], &named[..]].concat();
        let stream = sent(opening(60, 4, 6), &commands);
        let trial = case(stream, Lent::both(0));
        let left = without(parts(&trial), 2..4);
        let left: Vec<Command> = left
            .iter()
            .filter_map(|part| match part {
                Part::Command(command) => Some(*command),
                _ => None,
            })
            .collect();
        let named = [1, 0, 0, 2, 3, 7, 65_535].map(naming);
        assert_eq!(left, [&[Shelve(9), Shelve(7)], &named[..]].concat());
    }

    #[test]
    fn a_range_is_lowered_and_left_out() {
        let tries = lowered(Part::Command(Reserve(8, 20)));
        for command in [Shelve(20), Reserve(8, 10), Reserve(4, 20), Reserve(1, 1)] {
            assert!(tries.contains(&Part::Command(command)), "{command:?}");
        }
        let parts = [Reserve(80, 200), Settle(1, 90)].map(Part::Command);
        let expected = [Reserve(8, 20), Settle(1, 9)].map(Part::Command);
        assert_eq!(scaled(&parts, 10), Some(expected.to_vec()));
        assert_eq!(scaled(&parts, 100), None);
    }

    #[test]
    fn a_trailer_is_lowered_and_left_out() {
        let open = opening(600, 4, 6);
        let tries = lowered(Part::Opening(open.with_trailer(60)));
        for opening in [open, open.with_trailer(0), open.with_trailer(59)] {
            assert!(tries.contains(&Part::Opening(opening)), "{opening:?}");
        }
        let by_01 = lowered(Part::Opening(open));
        assert!(by_01.iter().all(|part| part.bytes()[0] == 0x01));
        let parts = [open.with_trailer(60), open.with_trailer(9), open].map(Part::Opening);
        let less = opening(60, 4, 6);
        let expected = [less.with_trailer(6), less.with_trailer(0), less].map(Part::Opening);
        assert_eq!(scaled(&parts, 10), Some(expected.to_vec()));
    }
}
