//! Times the library beside the same algorithms in Rust: `tree`, tournament trees by
//! hand, and `scan`, which tries bin after bin. To pair rows takes no tree: that
//! contestant then walks both of them from their ends, and the scan tries sound after
//! sound.
//!
//! - `bench` alternates the contestants over many rounds and prints the median
//!   time of a stream, of a row to repack and of two to pair, for each, and the median
//!   of the rounds' ratios of library to tree. Every turn repeats one stream or row,
//!   which the processor's branch prediction partly learns; `bench --fresh` goes on to
//!   others of the mix at every turn.
//! - `bench --once MIX CONTESTANT` runs one of them [`REPEATS`] times, for a
//!   tool that counts instructions; the contestant `none` does all but the
//!   shelving, to be taken off.
//! - `bench --mixes` lists the mixes.
//!
//! All contestants write into the same rows, which are not cleared in between.

mod by_hand;
mod mixes;
mod pair;
mod repack;
mod rows;
mod scan;
mod tree;

use std::hint::black_box;
use std::process::ExitCode;
use std::time::Instant;

use mixes::{CAPACITY, MIXES};
use rows::{RowMix, PAIRS, ROWS};
use shelf::{Repacked, RowRefusal, StreamBuilder, Totals, MAX_COMMANDS};

/// How often `--once` does the work.
const REPEATS: u32 = 20;
const ROUNDS: usize = 61;
/// A contestant's turn in a round, in streams or rows.
const TURN: usize = 8;
/// How many streams or rows of a mix `--fresh` goes through.
const FRESH: u64 = 64;
/// The bins that the sizes of a row are said to lie in.
const OLD: u32 = 2_000;

type Engine = fn(&[u8], &mut [u16], &mut [u32]) -> u64;
type Repacker = fn(&[u32], &mut [u16], u32, u32) -> u64;
type Pairer = fn(&[u32], &[u32], &mut [u16], u32) -> u64;

struct Contestant {
    name: &'static str,
    shelve: Engine,
    repack: Repacker,
    pair: Pairer,
}

const CONTESTANTS: [Contestant; 3] = [
    Contestant {
        name: "library",
        shelve: shelve_by_library,
        repack: repack_by_library,
        pair: pair_by_library,
    },
    Contestant {
        name: "tree",
        shelve: tree::shelve,
        repack: repack::by_tree,
        pair: pair::by_ends,
    },
    Contestant {
        name: "scan",
        shelve: scan::shelve,
        repack: repack::by_scan,
        pair: pair::by_scan,
    },
];

/// The library through its wrapper, as a Rust program would call it.
fn shelve_by_library(stream: &[u8], answers: &mut [u16], free: &mut [u32]) -> u64 {
    match shelf::shelve(stream, answers, free) {
        Ok(Totals {
            items,
            opened,
            looks,
        }) => u64::from(looks) << 32 | u64::from(items) << 16 | u64::from(opened),
        Err(refusal) => panic!("{refusal}"),
    }
}

/// The same.
fn repack_by_library(sizes: &[u32], answers: &mut [u16], capacity: u32, old: u32) -> u64 {
    match shelf::repack(sizes, answers, capacity, old) {
        Ok(Repacked {
            count,
            saves_nothing,
        }) => u64::from(saves_nothing) << 32 | u64::from(count),
        Err(refusal) => refused(refusal),
    }
}

/// The same.
fn pair_by_library(pictures: &[u32], sounds: &[u32], answers: &mut [u16], capacity: u32) -> u64 {
    match shelf::pair(pictures, sounds, answers, capacity) {
        Ok(pairs) => pairs.into(),
        Err(refusal) => refused(refusal),
    }
}

fn refused(RowRefusal { fault, place }: RowRefusal) -> u64 {
    by_hand::refused(fault.number().into(), place)
}

/// What the contestants work on.
enum Work {
    Stream(StreamBuilder),
    Repack([Vec<u32>; 1]),
    Pair([Vec<u32>; 2]),
}

/// A mix of any kind, and the work of each number that it has.
struct Named {
    name: &'static str,
    work: Box<dyn Fn(u64) -> Work>,
}

fn streams() -> impl Iterator<Item = Named> {
    let named = |mix: &'static mixes::Mix| Named {
        name: mix.name,
        work: Box::new(|seed| Work::Stream(mix.stream(seed))),
    };
    MIXES.iter().map(named)
}

/// Mixes of rows, and what is to be done with them.
fn rows<const N: usize>(
    mixes: &'static [RowMix<N>],
    work: fn([Vec<u32>; N]) -> Work,
) -> impl Iterator<Item = Named> {
    mixes.iter().map(move |mix| Named {
        name: mix.name,
        work: Box::new(move |seed| work(mix.rows(seed))),
    })
}

fn rows_to_repack() -> impl Iterator<Item = Named> {
    rows(&ROWS, Work::Repack)
}

fn rows_to_pair() -> impl Iterator<Item = Named> {
    rows(&PAIRS, Work::Pair)
}

fn all() -> impl Iterator<Item = Named> {
    streams().chain(rows_to_repack()).chain(rows_to_pair())
}

fn main() -> ExitCode {
    let args: Vec<String> = std::env::args().skip(1).collect();
    let args: Vec<&str> = args.iter().map(String::as_str).collect();
    let done = match args[..] {
        [] => {
            compare(1);
            true
        }
        ["--fresh"] => {
            compare(FRESH);
            true
        }
        ["--mixes"] => {
            all().for_each(|mix| println!("{}", mix.name));
            true
        }
        ["--once", mix, contestant] => once(mix, contestant),
        _ => false,
    };
    if done {
        return ExitCode::SUCCESS;
    }
    let mixes: Vec<&str> = all().map(|mix| mix.name).collect();
    eprintln!("usage: bench [--fresh | --mixes | --once MIX CONTESTANT]");
    eprintln!("mixes: {}", mixes.join(", "));
    eprintln!("contestants: library, tree, scan, none");
    ExitCode::from(2)
}

fn once(mix: &str, contestant: &str) -> bool {
    let Some(mix) = all().find(|known| known.name == mix) else {
        return false;
    };
    let work = (mix.work)(1);
    let mut lent = Lent::new();
    match CONTESTANTS.iter().find(|known| known.name == contestant) {
        Some(contestant) => {
            for _ in 0..REPEATS {
                black_box(run(contestant, &work, &mut lent));
            }
            true
        }
        None => contestant == "none" && !black_box(lent).answers.is_empty(),
    }
}

/// The rows that are lent.
#[derive(PartialEq, Eq)]
struct Lent {
    answers: Vec<u16>,
    free: Vec<u32>,
}

impl Lent {
    fn new() -> Self {
        Self {
            answers: vec![0; MAX_COMMANDS],
            free: vec![0; MAX_COMMANDS],
        }
    }
}

/// Does the work; its packed result.
fn run(contestant: &Contestant, work: &Work, Lent { answers, free }: &mut Lent) -> u64 {
    let (answers, free) = (black_box(answers), black_box(free));
    match black_box(work) {
        Work::Stream(stream) => (contestant.shelve)(stream.bytes(), answers, free),
        Work::Repack([sizes]) => (contestant.repack)(sizes, answers, CAPACITY, OLD),
        Work::Pair([pictures, sounds]) => (contestant.pair)(pictures, sounds, answers, CAPACITY),
    }
}

/// Compares the contestants on so many streams and rows of each mix.
fn compare(number: u64) {
    println!("ns for a stream of 4096 commands, median of {ROUNDS} rounds");
    table("tree", streams(), number, |ns| format!("{ns:.0}"));
    let microseconds = |ns| format!("{:.1}", ns / 1000.0);
    println!("\nmicroseconds to repack a row, of 4096 sizes unless its name says less");
    table("tree", rows_to_repack(), number, microseconds);
    println!("\nmicroseconds to pair two rows, of 4096 sizes each unless their name says less");
    table("ends", rows_to_pair(), number, microseconds);
}

/// A line for each mix, where the second contestant has this name.
fn table(
    second: &str,
    mixes: impl Iterator<Item = Named>,
    number: u64,
    shown: impl Fn(f64) -> String,
) {
    println!(
        "{:<13}{:>10}{second:>10}{:>10}{:>16}{:>16}",
        "mix",
        "library",
        "scan",
        format!("library/{second}"),
        "by the least"
    );
    for mix in mixes {
        let Times {
            medians,
            ratio,
            by_the_least,
        } = times(&mix, number);
        let [library, second, scan] = medians.map(&shown);
        println!(
            "{:<13}{library:>10}{second:>10}{scan:>10}{ratio:>16.2}{by_the_least:>16.2}",
            mix.name
        );
    }
}

/// What the contestants took, and the ratios of library to tree.
struct Times {
    medians: [f64; 3],
    ratio: f64,
    by_the_least: f64,
}

/// Times so many streams or rows of a mix.
fn times(mix: &Named, number: u64) -> Times {
    let work: Vec<Work> = (1..=number).map(&mix.work).collect();
    for work in &work {
        check_agreement(mix.name, work);
    }
    let times = take_turns(&work);
    let rounds = times[0].iter().zip(&times[1]);
    Times {
        ratio: median(rounds.map(|(library, tree)| library / tree).collect()),
        by_the_least: least(&times[0]) / least(&times[1]),
        medians: times.map(median),
    }
}

/// The time that a stream or row took each contestant in each round.
fn take_turns(work: &[Work]) -> [Vec<f64>; 3] {
    let mut lent = Lent::new();
    let mut times: [Vec<f64>; 3] = Default::default();
    for round in 0..=ROUNDS {
        for (times, contestant) in times.iter_mut().zip(&CONTESTANTS) {
            let turn = work.iter().cycle().skip(round * TURN % work.len());
            let start = Instant::now();
            for work in turn.take(TURN) {
                black_box(run(contestant, work, &mut lent));
            }
            let time = start.elapsed().as_nanos() as f64 / TURN as f64;
            // The first round only warms up.
            if round > 0 {
                times.push(time);
            }
        }
    }
    times
}

fn least(figures: &[f64]) -> f64 {
    figures.iter().copied().fold(f64::INFINITY, f64::min)
}

fn median(mut figures: Vec<f64>) -> f64 {
    figures.sort_by(f64::total_cmp);
    figures[figures.len() / 2]
}

/// A contestant that answers otherwise has nothing to compare. The scan has no
/// nodes to look at, so its result for a stream is all but the looks.
fn check_agreement(name: &str, work: &Work) {
    let [library, tree, scan] = CONTESTANTS.each_ref().map(|contestant| {
        let mut lent = Lent::new();
        let result = run(contestant, work, &mut lent);
        (result, lent)
    });
    assert!(tree == library, "tree and library differ on {name}");
    let (result, lent) = library;
    let without_looks = match work {
        Work::Stream(_) => result & 0xFFFF_FFFF,
        Work::Repack(_) | Work::Pair(_) => result,
    };
    let same = scan == (without_looks, lent);
    assert!(same, "scan and library differ on {name}");
}

#[cfg(test)]
mod tests {
    use super::*;

    #[test]
    fn the_contestants_agree() {
        for mix in all() {
            check_agreement(mix.name, &(mix.work)(1));
        }
    }
}
