//! An accepted stream beside the same without its refused commands.

use crate::compare::{by_library, Outcome};
use crate::rows::Lent;
use crate::streams::StreamTrial;
use crate::wire::{answer, has_sheet, Stream};

/// The commands that these answers do not refuse, each name among them replaced
/// by the number that the named command then has, and the places where they
/// stood. `None` if one of them names a refused command.
fn kept(stream: &Stream, words: &[u16]) -> Option<(Stream, Vec<usize>)> {
    let not_refused = |&place: &usize| answer(words[place]).is_ok();
    let places: Vec<usize> = (0..stream.commands.len()).filter(not_refused).collect();
    let renamed = |number: u16| {
        let place = usize::from(number).checked_sub(1)?;
        let place = places.binary_search(&place).ok()?;
        Some(place as u16 + 1)
    };
    let commands = places.iter().map(|&place| {
        let command = stream.commands[place];
        match command.names() {
            Some(number) => Some(command.naming(renamed(number)?)),
            None => Some(command),
        }
    });
    let kept = Stream {
        opening: stream.opening,
        commands: commands.collect::<Option<_>>()?,
    };
    Some((kept, places))
}

/// What an accepted stream comes to otherwise without its refused commands.
pub fn fault(trial: &StreamTrial, outcome: &Outcome) -> Option<&'static str> {
    let totals = outcome.totals()?;
    let stream = Stream::read(&trial.stream).ok()?;
    let (words, free) = (outcome.rows.answers(), outcome.rows.free());
    let Some((kept, places)) = kept(&stream, words) else {
        return Some("a refused command is named, and what names it is not refused");
    };
    if kept == stream {
        return None;
    }
    let kept = kept.bytes();
    let both_have_a_sheet = has_sheet(&kept) == has_sheet(&trial.stream);
    let without = by_library(&StreamTrial {
        stream: kept,
        lent: Lent::both(places.len()),
        ..trial.clone()
    });
    let same_words = places.iter().map(|&place| &words[place]);
    let same_free = places.iter().map(|&place| &free[place]);
    if !same_words.eq(without.rows.answers()) {
        Some("without the refused commands an answer is another")
    } else if !same_free.eq(without.rows.free()) {
        Some("without the refused commands the free units are others")
    } else if without.totals() != Some(totals) {
        Some("without the refused commands the totals are others")
    } else if both_have_a_sheet && without.sheet != outcome.sheet {
        Some("without the refused commands the sheet is another")
    } else {
        None
    }
}

#[cfg(test)]
mod tests {
    use super::*;
    use crate::cases::{case, sent, totals};
    use crate::paper::Totals;
    use crate::wire::Command::{self, Count, Reserve, Settle, Shelve, Switch, Withdraw};
    use crate::wire::{opening, refused_word as r};
    use crate::written::Written;

    const COMMANDS: [Command; 15] = [
        Withdraw(3),
        Shelve(0),
        Shelve(35),
        Withdraw(2),
        Shelve(20),
        Withdraw(3),
        Count,
        Switch(1),
        Withdraw(5),
        Shelve(60),
        Reserve(6, 5),
        Reserve(40, 50),
        Settle(12, 39),
        Settle(12, 45),
        Settle(10, 60),
    ];
    const WORDS: [u16; 15] = [
        r(17),
        r(8),
        1,
        r(17),
        2,
        1,
        2,
        1,
        r(17),
        1,
        r(19),
        2,
        r(21),
        2,
        r(20),
    ];
    const FREE: [u32; 15] = [0, 0, 25, 0, 40, 60, 0, 0, 0, 0, 0, 10, 0, 15, 0];
    /// Those that are not refused.
    const KEPT: [usize; 8] = [2, 4, 5, 6, 7, 9, 11, 13];

    const TOTALS: Totals = totals(3, 4, 1);

    #[test]
    fn names_follow_the_commands() {
        let commands = COMMANDS.to_vec();
        let opening = opening(60, 4, 6);
        let stream = Stream { opening, commands };
        let (kept, places) = kept(&stream, &WORDS).expect("none names a refused command");
        let expected = [
            Shelve(35),
            Shelve(20),
            Withdraw(1),
            Count,
            Switch(1),
            Shelve(60),
            Reserve(40, 50),
            Settle(7, 45),
        ];
        assert_eq!(kept.commands, expected);
        assert_eq!(places, KEPT);
        let mut words = WORDS;
        words[3] = 1;
        assert!(super::kept(&stream, &words).is_none());
    }

    #[test]
    fn what_comes_to_something_else_is_found() {
        let trial = case(sent(opening(60, 4, 6), &COMMANDS), Lent::both(WORDS.len()));
        let found = |totals: Totals, words: &[u16], free: &[u32]| {
            fault(&trial, &Outcome::accepted(&trial, totals, words, free))
        };
        assert_eq!(found(TOTALS, &WORDS, &FREE), None);
        let mut words = WORDS;
        words[3] = 1;
        let expected = Some("a refused command is named, and what names it is not refused");
        assert_eq!(found(TOTALS, &words, &FREE), expected);
        for place in KEPT {
            let mut words = WORDS;
            words[place] += 1;
            let expected = Some("without the refused commands an answer is another");
            assert_eq!(found(TOTALS, &words, &FREE), expected, "{place}");
            let mut free = FREE;
            free[place] += 1;
            let expected = Some("without the refused commands the free units are others");
            assert_eq!(found(TOTALS, &WORDS, &free), expected, "{place}");
        }
        let expected = Some("without the refused commands the totals are others");
        for wrong in [
            Totals { items: 4, ..TOTALS },
            Totals {
                opened: 3,
                ..TOTALS
            },
            Totals { looks: 3, ..TOTALS },
        ] {
            assert_eq!(found(wrong, &WORDS, &FREE), expected, "{wrong:?}");
        }
        let mut outcome = Outcome::accepted(&trial, TOTALS, &WORDS, &FREE);
        outcome.sheet = Written::text(trial.fill, "");
        let expected = Some("without the refused commands the sheet is another");
        assert_eq!(fault(&trial, &outcome), expected);
    }
}
