//! Refusals in words, for people: each sentence starts with its place.

use std::fmt::Display;

use shelf::{
    Answer, Command, CommandRefusal, Items, Opening, Production, StreamFault, StreamRefusal,
    MAX_CAPACITY, MAX_COMMANDS, MAX_ENTRIES, MAX_M, MAX_STOCK, MIN_M,
};

use crate::outcome::{Answered, Shelved};
use crate::source::{Source, MAX_STREAM};

/// A long list of refused commands is cut here.
const MOST_COMMANDS: usize = 20;

/// Why the whole stream was refused.
pub fn of_stream(source: &Source, refusal: StreamRefusal) -> Vec<String> {
    let reasons = match refusal.fault {
        StreamFault::NotOpened => vec![not_opened(&source.bytes)],
        StreamFault::UnknownCommand => {
            let byte = source.bytes[refusal.offset];
            vec![format!(
                "there is no command {byte:02X}: only 01 to 07 and 11"
            )]
        }
        StreamFault::CutShort => {
            let byte = source.bytes[refusal.offset];
            vec![format!(
                "the stream ends before the operands of {byte:02X} do"
            )]
        }
        StreamFault::SecondOpening => vec!["a second opening; a stream has one".to_string()],
        StreamFault::OpeningOutsideLimits => outside_limits(&source.bytes),
        StreamFault::TooManyCommands => vec![too_many_commands()],
        StreamFault::TooFewWords => vec![refusal.fault.to_string()],
        StreamFault::NoSuchProduction => {
            let number = source.bytes[refusal.offset + 1];
            outside("production", number, 0, 1).into_iter().collect()
        }
    };
    let spot = source.spot(refusal.offset);
    reasons.iter().map(|why| format!("{spot}: {why}")).collect()
}

fn not_opened(stream: &[u8]) -> String {
    let found = match stream.first() {
        Some(byte) => format!("starts with {byte:02X}"),
        None => "is empty".to_string(),
    };
    format!("the stream {found}; it must start with the opening, 01 or 11")
}

fn too_many_commands() -> String {
    let next = MAX_COMMANDS + 1;
    format!("this is command {next}; at most {MAX_COMMANDS} may follow the opening")
}

fn outside_limits(stream: &[u8]) -> Vec<String> {
    let opening = Opening::read(stream).expect("refused for its limits");
    let operands = [
        outside("capacity", opening.capacity, 1, MAX_CAPACITY),
        outside("stock", opening.stock, 1, MAX_STOCK),
        outside("m", opening.m, MIN_M, MAX_M),
    ];
    operands.into_iter().flatten().collect()
}

/// What to say of a number outside its limits.
pub fn outside<T: PartialOrd + Display>(
    name: &str,
    number: T,
    least: T,
    most: T,
) -> Option<String> {
    let within = least <= number && number <= most;
    (!within).then(|| format!("the {name} is {number}; it must be from {least} to {most}"))
}

/// What to say of a size that no cartridge holds.
pub fn outside_capacity(size: u32, capacity: u32) -> String {
    format!("is of {size} units; it must be from 1 to the capacity, {capacity}")
}

/// What to say of more lines of a kind than there may be.
pub fn beyond(lines: &[usize], what: &str) -> Option<String> {
    let line = lines.get(MAX_ENTRIES)?;
    let next = MAX_ENTRIES + 1;
    Some(format!(
        "line {line}: this is {what} {next}; there may be at most {MAX_ENTRIES}"
    ))
}

/// Why the stream was not looked at: it is longer than `shelve` takes.
pub fn of_length(source: &Source) -> Vec<String> {
    let spot = source.spot(MAX_STREAM);
    let long = format!("{spot}: here the stream grows longer than {MAX_STREAM} bytes");
    if !source.is_text() {
        return vec![long];
    }
    // If so long a text has too many commands as well, its author counts those.
    let next = shelf::commands(&source.bytes).nth(MAX_COMMANDS);
    let many = next.map(|(offset, _)| format!("{}: {}", source.spot(offset), too_many_commands()));
    many.into_iter().chain([long]).collect()
}

/// How large a master is, and where there is a trailer, what it takes up; from the
/// least to this size, where its size is not known yet.
pub fn units(opening: Opening, least: Option<u32>, size: u32) -> String {
    let units = match least {
        None => format!("{size} units"),
        Some(least) => format!("{least} to {size} units"),
    };
    let stored = opening.stored(size);
    match (opening.trailer, least.map(|least| opening.stored(least))) {
        (0, _) => units,
        (_, None) => format!("{units}, {stored} with its trailer"),
        (_, Some(least)) => format!("{units}, {least} to {stored} with its trailer"),
    }
}

/// Which commands of an accepted stream were refused, and why.
pub fn of_commands(source: &Source, shelved: &Shelved) -> Vec<String> {
    let mut sentences = Vec::new();
    let mut more = 0;
    let mut items = Items::default();
    let offsets = shelf::commands(&source.bytes).map(|(offset, _)| offset);
    for (number, (answered, offset)) in (1..).zip(shelved.answers.iter().zip(offsets)) {
        let Answered {
            production,
            command,
            answer,
        } = *answered;
        items.take_in(production, command, answer);
        let Answer::Refused(refusal) = answer else {
            continue;
        };
        if sentences.len() == MOST_COMMANDS {
            more += 1;
            continue;
        }
        let spot = source.spot(offset);
        let what = called(command, shelved.packing.opening);
        let why = reason(command, production, refusal, &items);
        let refusal = refusal.number();
        sentences.push(format!(
            "{spot}: {what} (command {number}) was refused with {refusal}: {why}"
        ));
    }
    match more {
        0 => {}
        1 => sentences.push("... and 1 more refused command".to_string()),
        more => sentences.push(format!("... and {more} more refused commands")),
    }
    sentences
}

/// What a command that can be refused is called.
fn called(command: Command, opening: Opening) -> String {
    match command {
        Command::Shelve { size } => format!("the master of {}", units(opening, None, size)),
        Command::Reserve { least, greatest } => {
            format!("the master of {}", units(opening, Some(least), greatest))
        }
        Command::Withdraw { number } => format!("the withdrawal of {number}"),
        Command::Settle { number, size } => format!("the settling of {number} at {size} units"),
        Command::Count | Command::Switch(_) => String::new(),
    }
}

/// Why it was refused, where these items are on the shelf: where the one that it
/// names is among them, in more words than the refusal has.
fn reason(
    command: Command,
    production: Production,
    refusal: CommandRefusal,
    items: &Items,
) -> String {
    let named = match command {
        Command::Withdraw { number } | Command::Settle { number, .. } => items.get(number),
        _ => None,
    };
    match (named, refusal) {
        (Some(item), _) if item.production != production => {
            format!("that master is production {}'s", item.production.number())
        }
        (Some(item), CommandRefusal::OutsideRange) => {
            let least = item.least.unwrap_or(item.size);
            format!("{refusal}, {least} to {}", item.size)
        }
        (Some(_), CommandRefusal::NotReserved) => "the size of that master is settled".to_string(),
        _ => refusal.to_string(),
    }
}

#[cfg(test)]
mod tests {
    use super::*;
    use crate::text::read_text;

    fn refusal(stream: &[u8]) -> StreamRefusal {
        Shelved::of(stream).err().expect("a stream with a fault")
    }

    fn refused(stream: &[u8]) -> Vec<String> {
        let source = Source::raw(stream.to_vec());
        of_stream(&source, refusal(stream))
    }

    #[test]
    fn a_refused_stream_is_explained() {
        assert_eq!(
            refused(b""),
            ["byte 0: the stream is empty; it must start with the opening, 01 or 11"]
        );
        assert_eq!(
            refused(b"o"),
            ["byte 0: the stream starts with 6F; it must start with the opening, 01 or 11"]
        );
        assert_eq!(
            refused(&[1, 0, 0, 0, 60, 0, 4, 6, 3, 8]),
            ["byte 9: there is no command 08: only 01 to 07 and 11"]
        );
        assert_eq!(
            refused(&[1, 0, 0, 0, 60, 0, 4, 6, 3, 6, 0, 0, 0, 5, 0, 0, 0]),
            ["byte 9: the stream ends before the operands of 06 do"]
        );
        assert_eq!(
            refused(&[1, 0, 0, 0, 60, 0, 4, 6, 3, 7, 0, 1, 0, 0, 0]),
            ["byte 9: the stream ends before the operands of 07 do"]
        );
        assert_eq!(
            refused(&[1, 0, 0, 0, 60, 0, 4, 6, 3, 5]),
            ["byte 9: the stream ends before the operands of 05 do"]
        );
        assert_eq!(
            refused(&[1, 0, 0, 0, 60, 0, 4, 6, 3, 5, 2]),
            ["byte 9: the production is 2; it must be from 0 to 1"]
        );
        assert_eq!(
            refused(&[1, 0, 0, 0, 60, 0, 4, 6, 2, 0]),
            ["byte 8: the stream ends before the operands of 02 do"]
        );
        assert_eq!(
            refused(&[1, 0, 0, 0, 60, 0, 4, 6, 4, 0]),
            ["byte 8: the stream ends before the operands of 04 do"]
        );
        assert_eq!(
            refused(&[1, 0, 0, 0, 60, 0, 4, 6, 1]),
            ["byte 8: a second opening; a stream has one"]
        );
        assert_eq!(
            refused(&[0x11, 0, 0, 0, 60, 0, 4, 6, 0]),
            ["byte 0: the stream ends before the operands of 11 do"]
        );
        assert_eq!(
            refused(&[0x11, 0, 0, 0, 60, 0, 4, 6, 0, 3, 3, 0x11]),
            ["byte 11: a second opening; a stream has one"]
        );
        assert_eq!(
            refused(&[1, 0, 0, 0, 0, 2, 1, 10]),
            [
                "byte 0: the capacity is 0; it must be from 1 to 16777216",
                "byte 0: the stock is 513; it must be from 1 to 512",
                "byte 0: the m is 10; it must be from 6 to 9",
            ]
        );
    }

    #[test]
    fn the_command_too_many_is_found_in_a_text() {
        let source = read_text(format!("open 60 4 6{}", "\n\ncount".repeat(4097)).as_bytes());
        let source = source.unwrap_or_else(|_| panic!("a good text"));
        assert_eq!(
            of_stream(&source, refusal(&source.bytes)),
            ["line 8195: this is command 4097; at most 4096 may follow the opening"]
        );
    }

    /// What is said of the refused commands of a text.
    fn listed(text: &str) -> Vec<String> {
        let source = read_text(text.as_bytes());
        let source = source.unwrap_or_else(|_| panic!("a good text"));
        let shelved = Shelved::of(&source.bytes).unwrap();
        of_commands(&source, &shelved)
    }

    #[test]
    fn a_refused_command_is_explained() {
        let text = "open 60 1 6\nshelve 61\n\nshelve 35\nwithdraw 1\nwithdraw 2\nwithdraw 2";
        assert_eq!(
            listed(text),
            [
                "line 2: the master of 61 units (command 1) was refused with 9: \
                 size and trailer above the capacity",
                "line 5: the withdrawal of 1 (command 3) was refused with 17: \
                 no master of that number is on the shelf",
                "line 7: the withdrawal of 2 (command 5) was refused with 17: \
                 no master of that number is on the shelf",
            ]
        );
    }

    #[test]
    fn a_master_of_the_other_production_is_told() {
        let text = "open 60 4 6\nshelve 35\nproduction 1\nwithdraw 1\nshelve 22\nproduction 0\n\
                    withdraw 1\nproduction 1\nwithdraw 1\nwithdraw 2";
        let refused = |line: usize, named: usize, command: usize, why: &str| {
            format!(
                "line {line}: the withdrawal of {named} (command {command}) was refused \
                 with 17: {why}"
            )
        };
        let not_there = "no master of that number is on the shelf";
        assert_eq!(
            listed(text),
            [
                refused(4, 1, 3, "that master is production 0's"),
                refused(9, 1, 8, not_there),
                refused(10, 2, 9, not_there),
            ]
        );
    }

    #[test]
    fn a_refused_settling_is_explained() {
        let text = "open 60 4 6\nreserve 30 40\nsettle 1 29\nsettle 1 41\nsettle 1 30\n\
                    settle 1 30\nshelve 22\nsettle 6 22\nsettle 9 22\nreserve 2 9\n\
                    production 1\nsettle 9 2\nsettle 6 22\nproduction 0\nwithdraw 9\nsettle 9 2";
        let refused = |line: usize, named: usize, size: usize, number: usize, why: &str| {
            let command = line - 1;
            format!(
                "line {line}: the settling of {named} at {size} units (command {command}) was \
                 refused with {number}: {why}"
            )
        };
        let outside = "the size is outside the master's range, 30 to 40";
        let settled = "the size of that master is settled";
        let not_there = "no master of that number waits to be settled";
        let others = "that master is production 0's";
        assert_eq!(
            listed(text),
            [
                refused(3, 1, 29, 21, outside),
                refused(4, 1, 41, 21, outside),
                refused(6, 1, 30, 20, settled),
                refused(8, 6, 22, 20, settled),
                refused(9, 9, 22, 20, not_there),
                refused(12, 9, 2, 20, others),
                refused(13, 6, 22, 20, others),
                refused(16, 9, 2, 20, not_there),
            ]
        );
    }

    #[test]
    fn a_refused_range_is_told_with_both_sizes() {
        let text = "open 60 1 6\nreserve 0 9\nreserve 9 8\nreserve 1 61\nshelve 35\nreserve 2 9";
        let range = |line: usize, sizes: &str, number: usize, why: &str| {
            let command = line - 1;
            format!(
                "line {line}: the master of {sizes} (command {command}) was refused with \
                 {number}: {why}"
            )
        };
        let wrong = "the least size is 0 or above the greatest";
        let above = "size and trailer above the capacity";
        let spent = "a new cartridge is called for and the stock is spent";
        assert_eq!(
            listed(text),
            [
                range(2, "0 to 9 units", 19, wrong),
                range(3, "9 to 8 units", 19, wrong),
                range(4, "1 to 61 units", 9, above),
                range(6, "2 to 9 units", 10, spent),
            ]
        );
        let text = "open 60 1 6 3\nreserve 0 9\nreserve 1 4294967295";
        assert_eq!(
            listed(text),
            [
                range(2, "0 to 9 units, 3 to 12 with its trailer", 19, wrong),
                range(
                    3,
                    "1 to 4294967295 units, 4 to 4294967298 with its trailer",
                    9,
                    above
                ),
            ]
        );
    }

    #[test]
    fn a_text_may_be_too_long_without_too_many_commands() {
        let long = "here the stream grows longer than 32768 bytes";
        let text = |reserves: usize| {
            let text = format!("open 60 4 6{}", "\nreserve 1 2".repeat(reserves));
            let source = read_text(text.as_bytes()).unwrap_or_else(|_| panic!("a good text"));
            of_length(&source)
        };
        assert_eq!(text(3641), [format!("line 3642: {long}")]);
        let many = "line 4098: this is command 4097; at most 4096 may follow the opening";
        assert_eq!(text(4097), [many.to_string(), format!("line 3642: {long}")]);
    }

    #[test]
    fn a_refused_master_is_told_with_its_trailer() {
        let text = "open 60 1 6 3\nshelve 58\nshelve 0\nshelve 57\nshelve 4294967295\nshelve 17";
        assert_eq!(
            listed(text),
            [
                "line 2: the master of 58 units, 61 with its trailer (command 1) was refused \
                 with 9: size and trailer above the capacity",
                "line 3: the master of 0 units, 3 with its trailer (command 2) was refused \
                 with 8: size 0",
                "line 5: the master of 4294967295 units, 4294967298 with its trailer \
                 (command 4) was refused with 9: size and trailer above the capacity",
                "line 6: the master of 17 units, 20 with its trailer (command 5) was refused \
                 with 10: a new cartridge is called for and the stock is spent",
            ]
        );
    }

    #[test]
    fn a_long_list_of_refused_commands_is_cut() {
        let listed = |times: usize| {
            let refused = ["\nshelve 2", "\nwithdraw 1"].iter().cycle().take(times);
            listed(&format!(
                "open 1 1 6{}",
                refused.copied().collect::<String>()
            ))
        };
        assert_eq!(listed(1).len(), 1);
        assert_eq!(listed(20).len(), 20);
        assert_eq!(listed(21)[20], "... and 1 more refused command");
        assert_eq!(listed(25)[20], "... and 5 more refused commands");
    }
}
