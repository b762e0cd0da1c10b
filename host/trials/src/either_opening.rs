//! A stream beside the same by the other opening: one by 01 with a trailer of 0,
//! one by 11 with the stored sizes in place of its trailer.

use crate::compare::{by_library, Outcome};
use crate::sheet;
use crate::streams::StreamTrial;
use crate::wire::{by_other_opening, has_sheet, Refusal};
use crate::written::Written;

/// What a stream comes to otherwise by the other opening. Behind that a refusal
/// stands where the trailer's bytes leave it.
pub fn fault(trial: &StreamTrial, outcome: &Outcome) -> Option<&'static str> {
    let stream = by_other_opening(&trial.stream)?;
    let refusal = outcome.refusal().map(|Refusal { number, at }| {
        let at = match at {
            0 => 0,
            _ => (at + stream.len()).saturating_sub(trial.stream.len()),
        };
        Refusal { number, at }
    });
    let sheet = match refusal {
        // A sheet needs no rows, so 7 is not its refusal. By the trailer's bytes
        // one of the two may be too long for a sheet.
        None | Some(Refusal { number: 7, .. }) => {
            let alike = has_sheet(&stream) == has_sheet(&trial.stream);
            alike.then(|| outcome.sheet.clone())
        }
        Some(refusal) => {
            let text = sheet::sheet(&stream, &Err(refusal));
            Some(Written::text(trial.fill, &text))
        }
    };
    let other = by_library(&StreamTrial {
        stream,
        ..trial.clone()
    });
    if other.totals() != outcome.totals() {
        Some("by the other opening the totals are others")
    } else if other.refusal() != refusal {
        Some("by the other opening the refusal is another, or stands elsewhere")
    } else if other.rows != outcome.rows {
        Some("by the other opening a word of the rows is another")
    } else if sheet.is_some_and(|sheet| sheet != other.sheet) {
        Some("by the other opening the sheet is another")
    } else {
        None
    }
}

#[cfg(test)]
mod tests {
    use super::*;
    use crate::cases::{case, sent, totals};
    use crate::paper::Totals;
    use crate::rows::Lent;
    use crate::wire::Command::{Count, Reserve, Settle, Shelve, Withdraw};
    use crate::wire::{opening, refused_word as r, Command, Opening};

    const OPEN: Opening = opening(60, 1, 6);
    const TRAILED: Opening = OPEN.with_trailer(5);

    /// The same by either opening: 35 on a cartridge, then refusals, 35 out, and one
    /// of 32 to 40 settled.
    const COMMANDS: [(Command, Command); 12] = [
        (Shelve(35), Shelve(30)),
        (Shelve(61), Shelve(56)),
        (Shelve(0), Shelve(0)),
        (Shelve(22), Shelve(17)),
        (Count, Count),
        (Shelve(u32::MAX), Shelve(u32::MAX)),
        (Withdraw(1), Withdraw(1)),
        (Reserve(0, 40), Reserve(0, 35)),
        (Reserve(32, 40), Reserve(27, 35)),
        (Settle(9, 31), Settle(9, 26)),
        (Settle(9, 32), Settle(9, 27)),
        (Settle(9, 32), Settle(9, 27)),
    ];
    const WORDS: [u16; 12] = [1, r(9), r(8), r(10), 1, r(9), 1, r(19), 1, r(21), 1, r(20)];
    const FREE: [u32; 12] = [25, 0, 0, 0, 0, 0, 60, 0, 20, 0, 28, 0];

    /// The stream by 01, by 11 with a trailer of 0, and by 11 with one of 5.
    fn streams() -> [Vec<u8>; 3] {
        let by_01 = COMMANDS.map(|(by_01, _)| by_01);
        let by_11 = COMMANDS.map(|(_, by_11)| by_11);
        [
            sent(OPEN, &by_01),
            sent(OPEN.with_trailer(0), &by_01),
            sent(TRAILED, &by_11),
        ]
    }

    const TOTALS: Totals = totals(1, 1, 1);

    #[test]
    fn what_comes_to_something_else_is_found() {
        for stream in streams() {
            let trial = case(stream, Lent::both(WORDS.len() + 1));
            let found = |totals: Totals, words: &[u16], free: &[u32]| {
                fault(&trial, &Outcome::accepted(&trial, totals, words, free))
            };
            assert_eq!(found(TOTALS, &WORDS, &FREE), None);
            let expected = Some("by the other opening the totals are others");
            for wrong in [Totals { items: 0, ..TOTALS }, Totals { looks: 2, ..TOTALS }] {
                assert_eq!(found(wrong, &WORDS, &FREE), expected, "{wrong:?}");
            }
            let expected = Some("by the other opening a word of the rows is another");
            for place in 0..WORDS.len() {
                let mut words = WORDS;
                words[place] += 1;
                assert_eq!(found(TOTALS, &words, &FREE), expected, "{place}");
                let mut free = FREE;
                free[place] += 1;
                assert_eq!(found(TOTALS, &WORDS, &free), expected, "{place}");
            }
            let mut outcome = Outcome::accepted(&trial, TOTALS, &WORDS, &FREE);
            outcome.sheet = Written::text(trial.fill, "");
            let expected = Some("by the other opening the sheet is another");
            assert_eq!(fault(&trial, &outcome), expected);
        }
    }

    #[test]
    fn a_refusal_stands_behind_the_trailer() {
        let elsewhere = Some("by the other opening the refusal is another, or stands elsewhere");
        for stream in streams() {
            let len = stream.len();
            let opening_len = 8 + 2 * usize::from(stream[0] == 0x11);
            let second = [&stream[..], &OPEN.bytes()].concat();
            for (stream, lent, number, at) in [
                (stream[..len - 1].to_vec(), 14, 3, len - 7),
                ([&stream[..], &[9]].concat(), 14, 2, len),
                ([&stream[..], &[5, 2]].concat(), 14, 18, len),
                (second, 14, 4, len),
                (stream.clone(), 11, 7, len),
                (stream[..opening_len + 1].to_vec(), 0, 3, opening_len),
            ] {
                let trial = case(stream, Lent::both(lent));
                let found = |number: u32, at: usize| {
                    fault(&trial, &Outcome::refused(&trial, Refusal { number, at }))
                };
                assert_eq!(found(number, at), None, "{number} at {at}");
                assert_eq!(found(number, at + 2), elsewhere, "{number} at {at}");
                assert_eq!(found(number + 1, at), elsewhere, "{number} at {at}");
            }
        }
    }

    #[test]
    fn a_refusal_at_the_opening_stands_there() {
        let outside = opening(60, 0, 6);
        for (stream, number) in [
            (outside.bytes(), 5),
            (outside.with_trailer(5).bytes(), 5),
            (outside.bytes()[..7].to_vec(), 3),
            (outside.bytes()[..1].to_vec(), 3),
        ] {
            let trial = case(stream, Lent::both(0));
            let refused = |at: usize| Outcome::refused(&trial, Refusal { number, at });
            assert_eq!(fault(&trial, &refused(0)), None);
            assert!(fault(&trial, &refused(8)).is_some());
        }
    }

    #[test]
    fn as_many_bytes_as_have_a_sheet_are_the_others_too() {
        for opening in [OPEN, TRAILED] {
            for len in 32_760..=32_772 {
                let mut stream = opening.bytes();
                stream.resize(len, 9);
                let trial = case(stream, Lent::both(0));
                let unknown = Refusal {
                    number: 2,
                    at: opening.bytes().len(),
                };
                let outcome = Outcome::refused(&trial, unknown);
                assert_eq!(fault(&trial, &outcome), None, "{len} bytes");
            }
        }
    }
}
