//! What the stream came to as one JSON object, its keys always in this order.

use std::fmt::Write;

use shelf::{Answer, Command, Opening, Row, Totals};

use crate::outcome::{Answered, Outcome, Shelved};
use crate::packing::Packing;
use crate::pair::{Beside, Master, Pairing};
use crate::repack::{Group, Repacking};
use crate::source::MAX_STREAM;

/// The object; `reasons` are the sentences about a stream refused.
pub fn object(outcome: &Outcome, reasons: &[String]) -> String {
    match outcome {
        Outcome::TooLong => refused(&format!("\"longest\": {MAX_STREAM}"), reasons),
        Outcome::Refused(refusal) => {
            let (number, offset) = (refusal.fault.number(), refusal.offset);
            refused(
                &format!("\"number\": {number}, \"offset\": {offset}"),
                reasons,
            )
        }
        Outcome::Shelved(shelved) => accepted(shelved),
    }
}

/// What a plan or list that is refused has in the place of its repacking or pairs.
pub fn refused_at_place(number: u32, place: usize, reasons: &[String]) -> String {
    refused(
        &format!("\"number\": {number}, \"place\": {place}"),
        reasons,
    )
}

/// Where each master goes, group by group.
pub fn repacked(repacking: &Repacking) -> String {
    let capacity = repacking.capacity;
    let counts = array(repacking.groups.iter().map(counts));
    let moves = array(repacking.groups.iter().flat_map(moves));
    format!(
        "{{\n\"accepted\": true,\n\"capacity\": {capacity},\n\"repacked\": {counts},\n\
         \"moves\": {moves}\n}}\n"
    )
}

/// Which sound goes beside each picture, and which beside none.
pub fn paired(pairing: &Pairing) -> String {
    let (capacity, pairs) = (pairing.capacity(), pairing.pairs);
    let pictures = array(pairing.pictures().map(|(Master { number, size }, beside)| {
        let beside = match beside {
            Some(Beside { sound, free }) => format!(
                "\"sound\": {}, \"sound_size\": {}, \"free\": {free}",
                sound.number, sound.size
            ),
            None => "\"sound\": null, \"sound_size\": null, \"free\": null".to_string(),
        };
        format!("{{\"picture\": {number}, \"size\": {size}, {beside}}}")
    }));
    let left_over = array(
        pairing
            .left_over()
            .map(|Master { number, size }| format!("{{\"sound\": {number}, \"size\": {size}}}")),
    );
    format!(
        "{{\n\"accepted\": true,\n\"capacity\": {capacity},\n\"pairs\": {pairs},\n\
         \"pictures\": {pictures},\n\"left_over\": {left_over}\n}}\n"
    )
}

fn counts(group: &Group) -> String {
    let (masters, before, after) = (group.moves.len(), group.old, group.new.count);
    let saves_nothing = group.new.saves_nothing;
    let production = production(group);
    format!(
        "{{{production}\"masters\": {masters}, \"before\": {before}, \"after\": {after}, \
         \"saves_nothing\": {saves_nothing}}}"
    )
}

fn moves(group: &Group) -> impl Iterator<Item = String> + '_ {
    let named = match group.production {
        Some(_) => "command",
        None => "place",
    };
    group.moves.iter().map(move |to| {
        let (production, number, stored) = (production(group), to.number, to.stored);
        let from = to.from.map_or("null".to_string(), |bin| bin.to_string());
        let to = to.to;
        format!(
            "{{{production}\"{named}\": {number}, \"stored\": {stored}, \"from\": {from}, \
             \"to\": {to}}}"
        )
    })
}

/// Its production, if it has one.
fn production(group: &Group) -> String {
    group.production.map_or(String::new(), |production| {
        format!("\"production\": {}, ", production.number())
    })
}

fn refused(refusal: &str, reasons: &[String]) -> String {
    let reasons = array(reasons.iter().map(|reason| string(reason)));
    format!("{{\n\"accepted\": false,\n\"refusal\": {{{refusal}}},\n\"reasons\": {reasons}\n}}\n")
}

fn accepted(shelved: &Shelved) -> String {
    let Opening {
        capacity,
        stock,
        m,
        trailer,
    } = shelved.packing.opening;
    let numbered = (1..).zip(&shelved.answers);
    let answers = array(numbered.map(|(number, &answered)| answer(number, answered)));
    let Totals {
        items,
        opened,
        looks,
    } = shelved.totals;
    let cartridges = cartridges(&shelved.packing);
    format!(
        "{{\n\"accepted\": true,\n\
         \"opening\": {{\"capacity\": {capacity}, \"stock\": {stock}, \"m\": {m}, \
         \"trailer\": {trailer}}},\n\
         \"answers\": {answers},\n\
         \"totals\": {{\"masters\": {items}, \"cartridges\": {opened}, \"looks\": {looks}}},\n\
         \"cartridges\": {cartridges}\n}}\n"
    )
}

fn answer(number: usize, answered: Answered) -> String {
    let Answered {
        production,
        command,
        answer,
    } = answered;
    let operand = match (command, answer) {
        (Command::Shelve { size }, _) => format!(", \"size\": {size}"),
        (Command::Reserve { least, greatest }, _) => {
            format!(", \"least\": {least}, \"greatest\": {greatest}")
        }
        (Command::Count | Command::Switch(_), _) => String::new(),
        (Command::Withdraw { number }, Answer::Refused(_)) => format!(", \"withdraw\": {number}"),
        (Command::Withdraw { number }, _) => format!(", \"withdrawn\": {number}"),
        (Command::Settle { number, size }, Answer::Refused(_)) => {
            format!(", \"settle\": {number}, \"size\": {size}")
        }
        (Command::Settle { number, size }, _) => {
            format!(", \"settled\": {number}, \"size\": {size}")
        }
    };
    let result = match answer {
        Answer::Placed { bin, free }
        | Answer::Withdrawn { bin, free }
        | Answer::Settled { bin, free } => {
            format!("\"cartridge\": {bin}, \"free\": {free}")
        }
        Answer::Counted { opened } => format!("\"count\": {opened}"),
        Answer::Switched(next) => format!("\"switched\": {}", next.number()),
        Answer::Refused(why) => {
            let reason = string(&why.to_string());
            format!("\"refusal\": {}, \"reason\": {reason}", why.number())
        }
    };
    let production = production.number();
    format!("{{\"command\": {number}, \"production\": {production}{operand}, {result}}}")
}

fn cartridges(packing: &Packing) -> String {
    array(packing.bins.iter().map(|bin| {
        let Row {
            production,
            number,
            class,
            load,
            free,
            held,
        } = bin.row;
        let production = production.number();
        let commands: Vec<u16> = bin.commands().collect();
        format!(
            "{{\"production\": {production}, \"number\": {number}, \"class\": {class}, \
             \"load\": {load}, \"free\": {free}, \"held\": {held}, \"commands\": {commands:?}}}"
        )
    }))
}

/// An array with an element a line.
fn array(elements: impl Iterator<Item = String>) -> String {
    let elements: Vec<String> = elements.collect();
    if elements.is_empty() {
        return "[]".to_string();
    }
    format!("[\n{}\n]", elements.join(",\n"))
}

fn string(text: &str) -> String {
    let mut quoted = String::from("\"");
    for character in text.chars() {
        match character {
            '"' | '\\' => quoted.extend(['\\', character]),
            '\0'..='\x1f' => {
                let code = u32::from(character);
                write!(quoted, "\\u{code:04x}").expect("a string takes all");
            }
            _ => quoted.push(character),
        }
    }
    quoted.push('"');
    quoted
}

#[cfg(test)]
mod tests {
    use super::*;
    use crate::source::Source;
    use shelf::Production;

    #[test]
    fn strings_are_escaped() {
        assert_eq!(string("a \"b\" \\ \n é"), r#""a \"b\" \\ \u000a é""#);
    }

    #[test]
    fn a_shelf_is_one_object() {
        let mut stream = shelf::StreamBuilder::open(60, 1, 6);
        stream.shelve(35).shelve(61).count();
        stream.withdraw(1).withdraw(1).shelve(40);
        stream.switch(Production::Second).withdraw(6).count();
        stream.switch(Production::First).reserve(9, 20);
        stream.reserve(10, 9).settle(6, 40).settle(11, 5);
        let source = Source::raw(stream.into_bytes());
        let outcome = Outcome::of(&source);
        let expected = r#"{
"accepted": true,
"opening": {"capacity": 60, "stock": 1, "m": 6, "trailer": 0},
"answers": [
{"command": 1, "production": 0, "size": 35, "cartridge": 1, "free": 25},
{"command": 2, "production": 0, "size": 61, "refusal": 9, "reason": "size and trailer above the capacity"},
{"command": 3, "production": 0, "count": 1},
{"command": 4, "production": 0, "withdrawn": 1, "cartridge": 1, "free": 60},
{"command": 5, "production": 0, "withdraw": 1, "refusal": 17, "reason": "no master of that number is on the shelf"},
{"command": 6, "production": 0, "size": 40, "cartridge": 1, "free": 20},
{"command": 7, "production": 0, "switched": 1},
{"command": 8, "production": 1, "withdraw": 6, "refusal": 17, "reason": "no master of that number is on the shelf"},
{"command": 9, "production": 1, "count": 0},
{"command": 10, "production": 1, "switched": 0},
{"command": 11, "production": 0, "least": 9, "greatest": 20, "refusal": 10, "reason": "a new cartridge is called for and the stock is spent"},
{"command": 12, "production": 0, "least": 10, "greatest": 9, "refusal": 19, "reason": "the least size is 0 or above the greatest"},
{"command": 13, "production": 0, "settle": 6, "size": 40, "refusal": 20, "reason": "no master of that number waits to be settled"},
{"command": 14, "production": 0, "settle": 11, "size": 5, "refusal": 20, "reason": "no master of that number waits to be settled"}
],
"totals": {"masters": 1, "cartridges": 1, "looks": 1},
"cartridges": [
{"production": 0, "number": 1, "class": 1, "load": 40, "free": 20, "held": 1, "commands": [6]}
]
}
"#;
        assert_eq!(object(&outcome, &[]), expected);
    }

    #[test]
    fn a_settled_master_has_its_size() {
        let mut stream = shelf::StreamBuilder::open(60, 1, 6);
        stream.reserve(9, 40).settle(1, 41).settle(1, 35);
        let shelved = Shelved::of(stream.bytes()).unwrap();
        let expected = [
            r#"{"command": 1, "production": 0, "least": 9, "greatest": 40, "cartridge": 1, "free": 20}"#,
            r#"{"command": 2, "production": 0, "settle": 1, "size": 41, "refusal": 21, "reason": "the size is outside the master's range"}"#,
            r#"{"command": 3, "production": 0, "settled": 1, "size": 35, "cartridge": 1, "free": 25}"#,
        ];
        let numbered = (1..).zip(&shelved.answers);
        let answers = numbered.map(|(number, &answered)| answer(number, answered));
        assert_eq!(answers.collect::<Vec<String>>(), expected);
        let cartridge = r#"{"production": 0, "number": 1, "class": 1, "load": 35, "free": 25, "held": 1, "commands": [1]}"#;
        assert_eq!(cartridges(&shelved.packing), format!("[\n{cartridge}\n]"));
    }

    #[test]
    fn a_repacking_is_one_object() {
        let mut stream = shelf::StreamBuilder::open_with_trailer(60, 3, 6, 2);
        stream
            .shelve(33)
            .shelve(23)
            .switch(Production::Second)
            .shelve(58);
        let shelved = Shelved::of(stream.bytes()).unwrap();
        let expected = r#"{
"accepted": true,
"capacity": 60,
"repacked": [
{"production": 0, "masters": 2, "before": 2, "after": 1, "saves_nothing": false},
{"production": 1, "masters": 1, "before": 1, "after": 1, "saves_nothing": true}
],
"moves": [
{"production": 0, "command": 1, "stored": 35, "from": 1, "to": 1},
{"production": 0, "command": 2, "stored": 25, "from": 2, "to": 1},
{"production": 1, "command": 4, "stored": 60, "from": 1, "to": 1}
]
}
"#;
        assert_eq!(repacked(&Repacking::of_shelf(&shelved)), expected);
        let plan = crate::plan::read_plan(b"plan 60 4\nmaster 35").unwrap();
        let repacking = Repacking::of_plan(&plan).unwrap_or_else(|_| panic!("a good list"));
        let expected = r#"{
"accepted": true,
"capacity": 60,
"repacked": [
{"masters": 1, "before": 4, "after": 1, "saves_nothing": false}
],
"moves": [
{"place": 1, "stored": 35, "from": null, "to": 1}
]
}
"#;
        assert_eq!(repacked(&repacking), expected);
    }

    #[test]
    fn a_pairing_is_one_object() {
        let list = crate::pair::read_list(b"pair 60\npicture 50\npicture 40\nsound 20\nsound 60");
        let list = list.unwrap();
        let pairing = Pairing::of(&list).unwrap_or_else(|_| panic!("a good list"));
        let expected = r#"{
"accepted": true,
"capacity": 60,
"pairs": 1,
"pictures": [
{"picture": 1, "size": 50, "sound": null, "sound_size": null, "free": null},
{"picture": 2, "size": 40, "sound": 1, "sound_size": 20, "free": 0}
],
"left_over": [
{"sound": 2, "size": 60}
]
}
"#;
        assert_eq!(paired(&pairing), expected);
    }

    #[test]
    fn a_refusal_is_one_object() {
        let source = Source::raw(vec![]);
        let outcome = Outcome::of(&source);
        let expected = "{\n\"accepted\": false,\n\
                        \"refusal\": {\"number\": 1, \"offset\": 0},\n\
                        \"reasons\": [\n\"because\"\n]\n}\n";
        let reasons = ["because".to_string()];
        assert_eq!(object(&outcome, &reasons), expected);
    }
}
