//! Compares the library with [`paper`], [`sheet`], [`decreasing`] and [`pm`], a simple
//! version written from the specification alone, over random streams, plans and rows
//! of sizes; and holds its answers against themselves: [`checks`], the fewest bins and
//! the most pairs. How many places a count reads is no part of the interface, and is
//! compared with what a program of its own prints ([`walk`]).
//!
//! `trials [--streams N] [--withdrawals N] [--productions N] [--ranges N] [--plans
//! N] [--repack N] [--pairs N] [--seed S] [--count-walk PROGRAM]`. The first difference
//! is made small and printed with both answers, and the exit status is 1.

mod answered;
mod cases;
mod checks;
mod compare;
mod coupled;
mod decreasing;
mod either_opening;
mod families;
mod fewest;
mod figures;
mod free_cases;
mod independence;
mod left_out;
mod limits;
mod lists;
mod looks;
mod looks_cases;
mod making;
mod matching;
mod met;
mod moved;
mod other_pairings;
mod pair_cases;
mod paired;
mod pairing;
mod paper;
mod plans;
mod pm;
mod production_cases;
mod productions;
mod range_cases;
mod ranges;
mod repack_cases;
mod repacked;
mod repacking;
mod rng;
mod rows;
mod settled;
mod shared;
mod sheet;
mod sheet_cases;
mod smaller;
mod still_shelved;
mod streams;
mod trailer_cases;
mod trailers;
mod true_sizes;
mod walk;
mod walk_cases;
mod wire;
mod withdrawal_cases;
mod withdrawals;
mod written;

use std::process::ExitCode;
use std::time::{Instant, SystemTime, UNIX_EPOCH};

use answered::{Answered, RowTrial};
use checks::{fault_of_paper, CHECKS};
use compare::{by_library, by_paper, by_paper_of, plan_by_library, Outcome};
use coupled::Coupled;
use decreasing::first_fit_decreasing;
use fewest::{Fewest, SHORT};
use looks::Taken;
use met::Met;
use moved::Moved;
use pairing::PairTrial;
use paper::Shelved;
use plans::PlanTrial;
use repacking::RepackTrial;
use rng::Rng;
use settled::Settled;
use shared::Shared;
use smaller::{show_plan, show_rows, show_stream, show_walk};
use streams::{StreamTrial, COUNTS};
use trailers::Trailers;
use walk::{Found, Program};
use wire::{has_sheet, Stream, PRODUCTIONS};

const USAGE: &str = "usage: trials [--streams N] [--withdrawals N] [--productions N] \
                     [--ranges N] [--plans N] [--repack N] [--pairs N] [--seed S] \
                     [--count-walk PROGRAM]";

/// The most that `3 * opened - 5 * k` may be, for every plan of k bins: the
/// figure that holds. The requests ask for 15 and 12.
const FIGURE: i64 = 5;

/// One stream of so many is given to the program that walks, besides all that
/// are made for counting: to start it takes longer than any other trial.
const WALKED: u64 = 20;

struct Settings {
    streams: u64,
    withdrawals: u64,
    productions: u64,
    ranges: u64,
    plans: u64,
    repack: u64,
    pairs: u64,
    seed: u64,
    count_walk: Option<Program>,
}

impl Settings {
    /// The stream trial of this number.
    fn stream(&self, index: u64) -> StreamTrial {
        streams::random(&mut Rng::of_trial(self.seed, 2 * index))
    }

    /// The withdrawal trial of this number: counted down, so that its generator
    /// is no other trial's.
    fn withdrawal(&self, index: u64) -> StreamTrial {
        withdrawals::random(&mut Rng::of_trial(self.seed, !index))
    }

    /// The trial of two productions of this number: likewise, with a seed of its
    /// own.
    fn production(&self, index: u64) -> StreamTrial {
        productions::random(&mut Rng::of_trial(!self.seed, !index))
    }

    /// The trial of ranges of this number: likewise, counted up.
    fn range(&self, index: u64) -> StreamTrial {
        ranges::random(&mut Rng::of_trial(!self.seed, index))
    }

    /// The plan trial of this number.
    fn plan(&self, index: u64) -> PlanTrial {
        plans::random(&mut Rng::of_trial(self.seed, 2 * index + 1))
    }

    /// The trial of a row of this number: likewise, with another seed of its own.
    fn row(&self, index: u64) -> RepackTrial {
        repacking::random(&mut Rng::of_trial(self.seed.swap_bytes(), index))
    }

    /// The trial of two rows of this number: likewise, counted down.
    fn two_rows(&self, index: u64) -> PairTrial {
        pairing::random(&mut Rng::of_trial(self.seed.swap_bytes(), !index))
    }
}

fn settings() -> Option<Settings> {
    let now = SystemTime::now().duration_since(UNIX_EPOCH).ok()?;
    let mut settings = Settings {
        streams: 10_000,
        withdrawals: 10_000,
        productions: 10_000,
        ranges: 10_000,
        plans: 10_000,
        repack: 10_000,
        pairs: 10_000,
        seed: now.as_nanos() as u64 % 1_000_000_000,
        count_walk: None,
    };
    let mut args = std::env::args().skip(1);
    while let Some(arg) = args.next() {
        let value = args.next()?;
        let number = || value.replace(',', "").parse().ok();
        match arg.as_str() {
            "--streams" => settings.streams = number()?,
            "--withdrawals" => settings.withdrawals = number()?,
            "--productions" => settings.productions = number()?,
            "--ranges" => settings.ranges = number()?,
            "--plans" => settings.plans = number()?,
            "--repack" => settings.repack = number()?,
            "--pairs" => settings.pairs = number()?,
            "--seed" => settings.seed = number()?,
            "--count-walk" => settings.count_walk = Some(Program(value.into())),
            _ => return None,
        }
    }
    Some(settings)
}

/// Why a run ends before its end.
enum Failure {
    Difference(String),
    /// The program that walks cannot be run.
    Program(String),
}

fn main() -> ExitCode {
    let Some(settings) = settings() else {
        eprintln!("{USAGE}");
        return ExitCode::from(2);
    };
    compare::quiet_panics();
    println!("seed {}", settings.seed);
    match run(&settings) {
        Ok(()) => ExitCode::SUCCESS,
        Err(Failure::Difference(difference)) => {
            println!("DIFFERENCE: {difference}");
            ExitCode::from(1)
        }
        Err(Failure::Program(why)) => {
            eprintln!("trials: no walk to compare with: {}", why.trim_end());
            ExitCode::from(2)
        }
    }
}

fn run(settings: &Settings) -> Result<(), Failure> {
    let start = Instant::now();
    let program = settings.count_walk.as_ref();

    let cases = cases::run(program).map_err(Failure::Program)?;
    if !cases.failed.is_empty() {
        let failed = cases.failed.join("\n");
        return Err(Failure::Difference(format!("named cases\n{failed}")));
    }
    println!("named cases: {} checks", cases.tried);

    let stream = |index| settings.stream(index);
    let tally = try_streams("stream", settings.streams, stream, |_| {})?;
    println!("{tally}");

    let mut met = Met::default();
    let withdrawal = |index| settings.withdrawal(index);
    let add = |trial: &StreamTrial| met.add(trial);
    let tally = try_streams("withdrawal", settings.withdrawals, withdrawal, add)?;
    println!("with withdrawals, {tally}\n{met}");

    let (mut met, mut shared) = (Met::default(), Shared::default());
    let production = |index| settings.production(index);
    let add = |trial: &StreamTrial| {
        met.add(trial);
        shared.add(trial);
    };
    let tally = try_streams("production", settings.productions, production, add)?;
    println!("with two productions, {tally}\n{met}\n{shared}");

    let mut settled = Settled::default();
    let range = |index| settings.range(index);
    let add = |trial: &StreamTrial| settled.add(trial);
    let tally = try_streams("range", settings.ranges, range, add)?;
    println!("with ranges, {tally}\n{settled}");

    match program {
        Some(program) => {
            let random = try_walks(settings, program)?;
            println!("walks: compared on {} named and {random}", cases.walks);
        }
        None => println!("walks: no program to compare with, left out"),
    }

    let mut passed = 0;
    for index in 0..settings.plans {
        let difference = |what| Failure::Difference(format!("plan trial {index}, {what}"));
        let passes = try_plan(settings.plan(index)).map_err(difference)?;
        passed += u64::from(passes);
    }
    println!("plans: {}, of these {passed} passed", settings.plans);

    let mut moved = Moved::default();
    let row = |index| settings.row(index);
    try_rows("repack", settings.repack, row, |trial, answered| {
        moved.add(trial, answered)
    })?;
    println!("{moved}");

    let mut coupled = Coupled::default();
    let two_rows = |index| settings.two_rows(index);
    try_rows("pair", settings.pairs, two_rows, |trial, answered| {
        coupled.add(trial, answered)
    })?;
    println!("{coupled}");
    println!("no difference, {:.1} s", start.elapsed().as_secs_f64());
    Ok(())
}

/// What the streams of a run were like.
#[derive(Default)]
struct Tally {
    streams: u64,
    accepted: u64,
    trailers: Trailers,
    /// What the counts found.
    counts: Found,
    /// The looks that the searches took.
    looks: Taken,
    /// Prefixes whose fewest bins were found.
    prefixes: u64,
    /// The largest `3 * opened - 5 * k` over these.
    worst: i64,
}

impl std::fmt::Display for Tally {
    fn fmt(&self, f: &mut std::fmt::Formatter<'_>) -> std::fmt::Result {
        let Self {
            streams,
            accepted,
            trailers,
            counts,
            looks,
            prefixes,
            worst,
        } = self;
        write!(
            f,
            "streams: {streams}, of these {accepted} accepted\n\
             {trailers}\n\
             streams with counts: {counts}\n\
             streams by their looks: {looks}\n\
             fewest cartridges k at {prefixes} points: 3 * opened - 5 * k is at most {worst}"
        )
    }
}

/// Tries so many streams, and has each added to what the run came across.
fn try_streams(
    name: &str,
    trials: u64,
    trial: impl Fn(u64) -> StreamTrial,
    mut add: impl FnMut(&StreamTrial),
) -> Result<Tally, Failure> {
    let mut tally = Tally::default();
    for index in 0..trials {
        let trial = trial(index);
        add(&trial);
        let difference = |what| Failure::Difference(format!("{name} trial {index}, {what}"));
        try_stream(trial, &mut tally).map_err(difference)?;
    }
    Ok(tally)
}

fn try_stream(trial: StreamTrial, tally: &mut Tally) -> Result<(), String> {
    tally.streams += 1;
    let kind = trial.kind;
    let outcome = by_library(&trial);
    let shelved = paper::shelve(&trial.stream);
    let differs = |trial: &StreamTrial| by_paper(trial) != by_library(trial);
    if by_paper_of(&trial, &shelved) != outcome {
        return Err(format!("{kind}\n{}", show_stream(trial, differs)));
    }
    tally.accepted += u64::from(outcome.totals().is_some());
    tally.trailers.add(&trial.stream, &outcome);
    for check in CHECKS {
        if let Some(fault) = check(&trial, &outcome) {
            let faulty = |trial: &StreamTrial| check(trial, &by_library(trial)).is_some();
            return Err(format!("{kind}: {fault}\n{}", show_stream(trial, faulty)));
        }
    }
    if let Ok(shelved) = shelved {
        if let Some(fault) = fault_of_paper(&shelved) {
            let faulty = |trial: &StreamTrial| {
                paper::shelve(&trial.stream).is_ok_and(|shelved| fault_of_paper(&shelved).is_some())
            };
            return Err(format!("{kind}: {fault}\n{}", show_stream(trial, faulty)));
        }
        let productions = shelved.packing.productions.iter();
        let counts = productions.flat_map(|production| &production.counts);
        let figures = counts.map(|(walk, _)| walk.figure);
        tally.counts.add(shelved.packing.opening.stock, figures);
        tally.looks.add(&shelved.packing);
    }
    match worst_excess(&trial, &outcome, tally) {
        Some(worst) if worst > FIGURE => {
            let breaks = |trial: &StreamTrial| {
                worst_excess(trial, &by_library(trial), &mut Tally::default()) > Some(FIGURE)
            };
            let shown = show_stream(trial, breaks);
            Err(format!(
                "{kind}: 3 * opened - 5 * k reaches {worst}\n{shown}"
            ))
        }
        _ => Ok(()),
    }
}

/// The largest `3 * opened - 5 * k` of a production of an accepted stream up to
/// its first accepted withdrawal or settling, by the library's own answers and the
/// greatest sizes. None, where nothing is accepted.
fn worst_excess(trial: &StreamTrial, outcome: &Outcome, tally: &mut Tally) -> Option<i64> {
    outcome.totals()?;
    let stream = Stream::read(&trial.stream).ok()?;
    let words = outcome.rows.answers();
    let lists = (0..PRODUCTIONS).map(|production| stream.placed(words, production));
    let worst = lists.filter_map(|placed| worst_of(&placed, stream.opening.capacity, tally));
    worst.max()
}

/// The same of one production's items, each with its bin: after every item with
/// the fewest bins k if the list is short, else at the end with the k of
/// first-fit decreasing.
fn worst_of(placed: &[(u32, u32)], capacity: u32, tally: &mut Tally) -> Option<i64> {
    let most = placed.iter().map(|&(_, bin)| bin as usize).max()?;
    let excess = |opened: usize, k: usize| 3 * opened as i64 - 5 * k as i64;
    if placed.len() > SHORT {
        let items: Vec<u32> = placed.iter().map(|&(size, _)| size).collect();
        let (_, k) = first_fit_decreasing(&items, capacity);
        return Some(excess(most, k as usize));
    }
    let mut fewest = Fewest::new(capacity.into());
    let mut opened = 0;
    let mut worst = 0;
    for &(size, bin) in placed {
        fewest.add(size.into());
        opened = opened.max(bin as usize);
        worst = worst.max(excess(opened, fewest.bins()));
        tally.prefixes += 1;
    }
    tally.worst = tally.worst.max(worst);
    Some(worst)
}

/// Compares the walk after each stream that is chosen for it with what the
/// program prints; says how many there were.
fn try_walks(settings: &Settings, program: &Program) -> Result<String, Failure> {
    let streams = (0..settings.streams).map(|index| (index, settings.stream(index)));
    let withdrawals = (0..settings.withdrawals).map(|index| (index, settings.withdrawal(index)));
    let productions = (0..settings.productions).map(|index| (index, settings.production(index)));
    let ranges = (0..settings.ranges).map(|index| (index, settings.range(index)));
    let plain = streams.chain(withdrawals);
    let mut compared = 0;
    let mut found = Found::default();
    for (index, trial) in plain.chain(productions).chain(ranges) {
        if trial.kind != COUNTS && index % WALKED != 0 {
            continue;
        }
        if program.differs(&trial.stream).map_err(Failure::Program)? {
            let (kind, shown) = (trial.kind, show_walk(trial, program));
            let difference = format!("walk after trial {index}, {kind}\n{shown}");
            return Err(Failure::Difference(difference));
        }
        compared += 1;
        // Nothing is printed of what is too long.
        if !has_sheet(&trial.stream) {
            continue;
        }
        if let Ok(Shelved { packing, walks, .. }) = paper::shelve(&trial.stream) {
            let figures = walks.into_iter().map(|walk| walk.figure);
            found.add(packing.opening.stock, figures);
        }
    }
    Ok(format!("{compared} random streams, of these {found}"))
}

/// Tries so many rows of sizes, and has each added to what the run came across.
fn try_rows<T: RowTrial>(
    name: &str,
    trials: u64,
    trial: impl Fn(u64) -> T,
    mut add: impl FnMut(&T, &Answered<T::Returned>),
) -> Result<(), Failure> {
    for index in 0..trials {
        let trial = trial(index);
        let answered = trial.by_library();
        let kind = trial.given().kind;
        let difference = |what: &str, shown: String| {
            let what = format!("{name} trial {index}, {kind}{what}\n{shown}");
            Err(Failure::Difference(what))
        };
        if answered != trial.by_paper() {
            let differs = |trial: &T| trial.by_library() != trial.by_paper();
            return difference("", show_rows(trial, differs));
        }
        if let Some(what) = trial.fault(&answered) {
            let faulty = |trial: &T| trial.fault(&trial.by_library()).is_some();
            return difference(&format!(": {what}"), show_rows(trial, faulty));
        }
        add(&trial, &answered);
    }
    Ok(())
}

/// Whether the plan passed, by the library's own answer.
fn try_plan(trial: PlanTrial) -> Result<bool, String> {
    let kind = trial.kind;
    let verdict = plan_by_library(&trial);
    let differs = |trial: &PlanTrial| plan_by_library(trial) != Some(trial.by_paper());
    if verdict != Some(trial.by_paper()) {
        return Err(format!("{kind}\n{}", show_plan(trial, differs)));
    }
    Ok(verdict == Some(Ok(())))
}

#[cfg(test)]
mod tests {
    use super::*;
    use crate::cases::{case, sent, totals};
    use crate::rows::Lent;
    use crate::wire::opening;
    use crate::wire::Command::{Reserve, Settle, Shelve, Switch, Withdraw};

    /// The list that does worst, five for two, and six that fill as many; with
    /// one of them taken out, or not, in between.
    #[test]
    fn the_fewest_are_compared_up_to_the_first_withdrawal() {
        let worst = |named: u16| {
            let mut commands = [6, 5, 6, 4, 1].map(Shelve).to_vec();
            commands.push(Withdraw(named));
            commands.extend([Shelve(11); 6]);
            let trial = case(sent(opening(11, 512, 6), &commands), Lent::both(12));
            let mut tally = Tally::default();
            let worst = worst_excess(&trial, &by_paper(&trial), &mut tally);
            (worst, tally.prefixes)
        };
        assert_eq!(worst(1), (Some(5), 5));
        assert_eq!(worst(6), (Some(5), 11));
    }

    /// The same by the greatest sizes, up to the first settling.
    #[test]
    fn the_fewest_are_compared_by_the_greatest_up_to_the_first_settling() {
        let worst = |settled: u32| {
            let mut commands = [6, 5, 6, 4, 1].map(|size| Reserve(1, size)).to_vec();
            commands.push(Settle(1, settled));
            commands.extend([Shelve(11); 6]);
            let trial = case(sent(opening(11, 512, 6), &commands), Lent::both(12));
            let mut tally = Tally::default();
            let worst = worst_excess(&trial, &by_paper(&trial), &mut tally);
            (worst, tally.prefixes)
        };
        assert_eq!(worst(6), (Some(5), 5));
        // What is refused settles nothing.
        assert_eq!(worst(7), (Some(5), 11));
    }

    /// The same in one production, where the other takes out its only item.
    #[test]
    fn the_fewest_are_those_of_each_production() {
        let mut commands = vec![Shelve(11), Switch(1)];
        commands.extend([6, 5, 6, 4, 1].map(Shelve));
        commands.extend([Switch(0), Withdraw(1), Shelve(11), Switch(1)]);
        commands.extend([Shelve(11); 6]);
        let lent = Lent::both(commands.len());
        let trial = case(sent(opening(11, 512, 6), &commands), lent);
        let mut tally = Tally::default();
        let worst = worst_excess(&trial, &by_paper(&trial), &mut tally);
        assert_eq!((worst, tally.prefixes), (Some(5), 1 + 11));
    }

    /// By their stored sizes two go into a bin, by the bare ones all twelve.
    #[test]
    fn the_fewest_are_of_stored_sizes() {
        let opening = opening(60, 512, 6).with_trailer(29);
        let trial = case(sent(opening, &[Shelve(1); 12]), Lent::both(12));
        let words: Vec<u16> = (1..=12).collect();
        let outcome = Outcome::accepted(&trial, totals(12, 12, 1), &words, &[0; 12]);
        let worst = worst_excess(&trial, &outcome, &mut Tally::default());
        assert_eq!(worst, Some(3 * 12 - 5 * 6));
        // A list that is not short is held against first-fit decreasing.
        let trial = case(sent(opening, &[Shelve(1); 14]), Lent::both(14));
        let worst = worst_excess(&trial, &by_paper(&trial), &mut Tally::default());
        assert_eq!(worst, Some(3 * 7 - 5 * 7));
    }

    /// A shelf that opens a bin for every item is found, but not behind a
    /// withdrawal.
    #[test]
    fn too_many_opened_are_found_before_a_withdrawal_alone() {
        let worst = |withdrawn: usize| {
            let mut commands = vec![Shelve(1); 12];
            commands[withdrawn] = Withdraw(1);
            let trial = case(sent(opening(60, 512, 6), &commands), Lent::both(12));
            let mut words: Vec<u16> = (1..=12).collect();
            words[withdrawn] = 1;
            let outcome = Outcome::accepted(&trial, totals(10, 11, 1), &words, &[0; 12]);
            worst_excess(&trial, &outcome, &mut Tally::default())
        };
        assert_eq!(worst(11), Some(3 * 11 - 5));
        assert_eq!(worst(7), Some(3 * 7 - 5));
        assert_eq!(worst(1), Some(0));
    }
}
