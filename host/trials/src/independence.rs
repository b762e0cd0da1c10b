//! An accepted stream beside others that differ from it only in commands of one
//! production, replaced one for one, none of them a switch: where no master is
//! refused with 10 in either, the other production is answered the same.

use crate::compare::{words_by_library, Outcome};
use crate::lists::{bad_range, bad_size, random_size, random_sizes, range_to, Sizes};
use crate::rng::Rng;
use crate::streams::StreamTrial;
use crate::wire::{refused_word, Command, Stream, PRODUCTIONS};

/// What may stand in the place of a command.
enum Replacing {
    /// Anything but a switch, for so many of a hundred commands.
    Some(u64, Sizes),
    /// A count, for each: it opens nothing, so that the stock lasts.
    ByCounts,
}

impl Replacing {
    fn command(&self, rng: &mut Rng, stream: &Stream, command: Command) -> Command {
        match *self {
            Self::ByCounts => Command::Count,
            Self::Some(percent, _) if !rng.chance(percent) => command,
            Self::Some(_, sizes) => {
                let size = random_size(rng, sizes, stream.opening);
                let number = rng.place(stream.commands.len() + 2) as u16;
                match rng.between(0, 13) {
                    0..=1 => Command::Count,
                    2..=4 => Command::Withdraw(number),
                    5 => Command::Shelve(bad_size(rng, stream.opening)),
                    6 => bad_range(rng, stream.opening),
                    7..=8 => range_to(rng, size),
                    9 => Command::Settle(number, size / 2),
                    _ => Command::Shelve(size),
                }
            }
        }
    }
}

/// The stream with commands of this production replaced.
fn replaced(rng: &mut Rng, stream: &Stream, production: usize, replacing: Replacing) -> Stream {
    let commands = stream.commands.iter().zip(stream.productions());
    let replaced = commands.map(|(&command, its)| match command {
        Command::Switch(_) => command,
        _ if its != production => command,
        _ => replacing.command(rng, stream, command),
    });
    Stream {
        opening: stream.opening,
        commands: replaced.collect(),
    }
}

/// Holds an accepted stream against others that differ from it in one
/// production: how many answers of the other were compared, or what is wrong
/// with one.
pub fn compared(trial: &StreamTrial, outcome: &Outcome) -> Result<usize, &'static str> {
    let stream = match Stream::read(&trial.stream) {
        Ok(stream) if outcome.totals().is_some() => stream,
        _ => return Ok(0),
    };
    let productions: Vec<usize> = stream.productions().collect();
    let words = &outcome.rows.answers()[..productions.len()];
    let free = &outcome.rows.free()[..productions.len()];
    let spent = refused_word(10);
    if words.contains(&spent) || !productions.contains(&1) {
        return Ok(0);
    }
    let mut rng = Rng::of_trial(trial.fill, 1);
    let mut compared = 0;
    for production in 0..PRODUCTIONS {
        let others = |&place: &usize| productions[place] != production;
        let places: Vec<usize> = (0..productions.len()).filter(others).collect();
        let percent = rng.pick(&[5, 40, 100]);
        let some = Replacing::Some(percent, random_sizes(&mut rng));
        for replacing in [some, Replacing::ByCounts] {
            let other = replaced(&mut rng, &stream, production, replacing);
            let Some((other_words, other_free)) = words_by_library(&other) else {
                return Err("with the other production's commands replaced it is not accepted");
            };
            if other_words.contains(&spent) {
                continue;
            }
            if places.iter().any(|&n| words[n] != other_words[n]) {
                return Err("an answer goes by the other production's commands");
            }
            if places.iter().any(|&n| free[n] != other_free[n]) {
                return Err("free units go by the other production's commands");
            }
            compared += places.len();
        }
    }
    Ok(compared)
}

/// What is wrong with an answer that goes by the other production.
pub fn fault(trial: &StreamTrial, outcome: &Outcome) -> Option<&'static str> {
    compared(trial, outcome).err()
}

#[cfg(test)]
mod tests {
    use super::*;
    use crate::cases::{case, sent, totals};
    use crate::rows::Lent;
    use crate::wire::Command::{Count, Shelve, Switch, Withdraw};
    use crate::wire::{opening, Opening};

    const OPEN: Opening = opening(60, 4, 6);
    const COMMANDS: [Command; 9] = [
        Shelve(35),
        Switch(1),
        Shelve(22),
        Count,
        Switch(0),
        Shelve(20),
        Withdraw(1),
        Switch(1),
        Withdraw(3),
    ];
    const WORDS: [u16; 9] = [1, 1, 1, 1, 0, 2, 1, 1, 1];
    const FREE: [u32; 9] = [25, 0, 38, 0, 0, 40, 60, 0, 60];

    fn stream() -> Stream {
        let (opening, commands) = (OPEN, COMMANDS.to_vec());
        Stream { opening, commands }
    }

    #[test]
    fn commands_of_one_production_are_replaced() {
        let mut rng = Rng::of_trial(1, 1);
        for (production, kept) in [(0, [2, 3, 8]), (1, [0, 5, 6])] {
            let by_counts = replaced(&mut rng, &stream(), production, Replacing::ByCounts);
            let all = Replacing::Some(100, Sizes::Uniform);
            let by_any = replaced(&mut rng, &stream(), production, all);
            for (place, command) in COMMANDS.into_iter().enumerate() {
                let any = by_any.commands[place];
                if kept.contains(&place) || matches!(command, Switch(_)) {
                    assert_eq!([by_counts.commands[place], any], [command; 2]);
                } else {
                    assert_eq!(by_counts.commands[place], Count);
                    assert!(!matches!(any, Switch(_)));
                }
            }
            let none = Replacing::Some(0, Sizes::Uniform);
            assert_eq!(replaced(&mut rng, &stream(), production, none), stream());
        }
    }

    #[test]
    fn an_answer_that_goes_by_the_other_production_is_found() {
        let trial = case(sent(OPEN, &COMMANDS), Lent::both(WORDS.len() + 1));
        let found = |words: &[u16], free: &[u32]| {
            let outcome = Outcome::accepted(&trial, totals(1, 3, 1), words, free);
            compared(&trial, &outcome)
        };
        // With counts alone the stock lasts, so each is compared at least once.
        assert!(found(&WORDS, &FREE).is_ok_and(|compared| compared >= 9));
        for place in 0..WORDS.len() {
            let mut words = WORDS;
            words[place] += 1;
            let expected = Err("an answer goes by the other production's commands");
            assert_eq!(found(&words, &FREE), expected, "{place}");
            let mut free = FREE;
            free[place] += 1;
            let expected = Err("free units go by the other production's commands");
            assert_eq!(found(&WORDS, &free), expected, "{place}");
        }
        // Once the stock is spent, they may differ.
        let mut words = WORDS;
        (words[3], words[5]) = (2, refused_word(10));
        assert_eq!(found(&words, &FREE), Ok(0));
    }
}
