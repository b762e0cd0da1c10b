//! The header for C has the same limits as this crate, and the same number and
//! words for each refusal.

use std::collections::HashMap;
use std::env;
use std::fs;
use std::path::PathBuf;

use shelf::{CommandRefusal, PlanFault, RowFault, StreamFault};

/// The header, from the folder `SHELF_INCLUDE_DIR` if that is set.
fn header() -> String {
    let folder = match env::var_os("SHELF_INCLUDE_DIR") {
        Some(folder) => PathBuf::from(folder),
        None => PathBuf::from(env!("CARGO_MANIFEST_DIR")).join("../../include"),
    };
    fs::read_to_string(folder.join("shelf.h")).expect("the header can be read")
}

#[test]
fn the_limits_are_the_same() {
    let header = header();
    let defined: HashMap<&str, &str> = header
        .lines()
        .filter_map(|line| {
            let mut words = line.strip_prefix("#define SHELF_")?.split_whitespace();
            Some((words.next()?, words.next()?))
        })
        .collect();
    let limits = [
        ("MAX_CAPACITY", shelf::MAX_CAPACITY as usize),
        ("MAX_STOCK", shelf::MAX_STOCK.into()),
        ("MIN_M", shelf::MIN_M.into()),
        ("MAX_M", shelf::MAX_M.into()),
        ("MAX_TRAILER", shelf::MAX_TRAILER.into()),
        ("MAX_COMMANDS", shelf::MAX_COMMANDS),
        ("MAX_ENTRIES", shelf::MAX_ENTRIES),
        ("MAX_SHEET_STREAM", shelf::MAX_SHEET_STREAM),
        ("SHEET_BYTES", shelf::SHEET_BYTES),
    ];
    for (name, limit) in limits {
        assert_eq!(defined[name], limit.to_string(), "{name}");
    }
}

#[test]
fn the_refusals_are_the_same() {
    let header = header();
    let lines: Vec<&str> = header.lines().map(str::trim).collect();
    let words: HashMap<&str, &str> = lines
        .windows(2)
        .filter_map(|pair| {
            let name = pair[0].strip_prefix("case ")?.strip_suffix(':')?;
            let words = pair[1].strip_prefix("return \"")?.strip_suffix("\";")?;
            Some((name, words))
        })
        .collect();
    let numbered = lines.iter().filter_map(|line| {
        let (name, number) = line.trim_end_matches(',').split_once(" = ")?;
        Some((name, number.parse().ok()?))
    });
    let mut numbers = Vec::new();
    for (name, number) in numbered {
        let ours = [
            StreamFault::from_number(number).map(|fault| fault.to_string()),
            CommandRefusal::from_number(number).map(|why| why.to_string()),
            PlanFault::from_number(number).map(|fault| fault.to_string()),
            RowFault::from_number(number).map(|fault| fault.to_string()),
        ];
        let ours: Vec<String> = ours.into_iter().flatten().collect();
        assert!(!ours.is_empty(), "{name}");
        assert!(ours.iter().all(|ours| ours == words[name]), "{name}");
        numbers.push(number);
    }
    assert_eq!(numbers, (1..=22).collect::<Vec<u32>>());
    assert_eq!(words.len(), numbers.len());
}
