//! What the trailers of a run came across, so that a run shows what it tried.

use std::fmt;

use crate::compare::Outcome;
use crate::paper::size_class;
use crate::wire::{answer, parts, Command, Opening, Part, Refusal, Stream, OPEN_WITH_TRAILER};

/// Whether a trailer stands so beside the capacity.
type Beside = fn(trailer: u32, capacity: u32) -> bool;

const TRAILERS: [(&str, Beside); 6] = [
    ("0", |trailer, _| trailer == 0),
    ("1", |trailer, _| trailer == 1),
    ("the capacity less 1", |trailer, capacity| {
        trailer + 1 == capacity
    }),
    ("the capacity", |trailer, capacity| trailer == capacity),
    ("one more", |trailer, capacity| trailer == capacity + 1),
    ("65,535", |trailer, _| trailer == 65_535),
];

/// What becomes of a command where there is a trailer.
#[derive(Clone, Copy)]
enum Sent {
    OwnClass,
    OtherClass,
    Zero,
    RangeWrong,
    TrailerTooMuch,
    PastWidth,
    StockSpent,
    TakenOut,
    Settled,
}

const SENT: [(Sent, &str); 9] = [
    (Sent::OwnClass, "placed in the class of the bare size"),
    (Sent::OtherClass, "in another class"),
    (Sent::Zero, "refused with 8"),
    (Sent::RangeWrong, "with 19"),
    (Sent::TrailerTooMuch, "with 9 for the trailer alone"),
    (Sent::PastWidth, "with 9 where 32 bits of the sum fit"),
    (Sent::StockSpent, "with 10"),
    (Sent::TakenOut, "taken out"),
    (Sent::Settled, "settled"),
];

impl Sent {
    /// What became of a command that is answered with this word, if it is one of
    /// these.
    fn of(opening: &Opening, command: Command, word: u16) -> Option<Self> {
        let capacity = u64::from(opening.capacity);
        let class = |size: u64| size_class(size, capacity);
        let size = match (command, answer(word)) {
            (Command::Withdraw(_), Ok(_)) => return Some(Self::TakenOut),
            (Command::Settle(..), Ok(_)) => return Some(Self::Settled),
            _ => command.item()?,
        };
        Some(match answer(word) {
            Ok(_) if class(size.into()) == class(opening.stored(size)) => Self::OwnClass,
            Ok(_) => Self::OtherClass,
            Err(8) => Self::Zero,
            Err(19) => Self::RangeWrong,
            Err(9) if size <= opening.capacity => Self::TrailerTooMuch,
            Err(9) => {
                let last_32_bits = opening.stored(size) as u32;
                (last_32_bits <= opening.capacity).then_some(Self::PastWidth)?
            }
            Err(10) => Self::StockSpent,
            Err(_) => return None,
        })
    }
}

/// The refusals of streams by 11.
const NUMBERS: [u32; 7] = [2, 3, 4, 5, 6, 7, 18];

/// How often something was met.
#[derive(Default)]
pub struct Trailers {
    /// Accepted streams, by 01 and by 11.
    accepted: [u64; 2],
    /// Those by 11, by their trailers.
    trailers: [u64; TRAILERS.len()],
    sent: [u64; SENT.len()],
    /// Refused streams by 11.
    refused: [u64; NUMBERS.len()],
    /// Second openings of the other kind, whole and cut short.
    other_kind: [u64; 2],
}

impl Trailers {
    /// Adds a stream that came to this.
    pub fn add(&mut self, stream: &[u8], outcome: &Outcome) {
        match (Stream::read(stream), outcome.refusal()) {
            (_, Some(refusal)) => self.add_refused(stream, refusal),
            (Ok(stream), None) => self.add_accepted(&stream, outcome.rows.answers()),
            (Err(_), None) => {}
        }
    }

    fn add_accepted(&mut self, Stream { opening, commands }: &Stream, words: &[u16]) {
        self.accepted[usize::from(opening.trailer.is_some())] += 1;
        let Some(trailer) = opening.trailer else {
            return;
        };
        for (times, (_, beside)) in self.trailers.iter_mut().zip(TRAILERS) {
            *times += u64::from(beside(trailer.into(), opening.capacity));
        }
        if trailer > 0 {
            let answered = commands.iter().zip(words);
            let sent = answered.filter_map(|(&command, &word)| Sent::of(opening, command, word));
            sent.for_each(|sent| self.sent[sent as usize] += 1);
        }
    }

    fn add_refused(&mut self, stream: &[u8], Refusal { number, at }: Refusal) {
        if stream.first() == Some(&OPEN_WITH_TRAILER) {
            for (times, known) in self.refused.iter_mut().zip(NUMBERS) {
                *times += u64::from(known == number);
            }
        }
        if number == 4 && stream[0] != stream[at] {
            let second = parts(stream).find(|&(offset, _)| offset == at);
            let cut_short = matches!(second, Some((_, Part::CutShort(_))));
            self.other_kind[usize::from(cut_short)] += 1;
        }
    }
}

/// Each of these with how often it was met.
pub fn listed<W: fmt::Display, const N: usize>(words: [W; N], times: &[u64; N]) -> String {
    let listed = words.iter().zip(times);
    let listed: Vec<String> = listed
        .map(|(word, times)| format!("{word}: {times}"))
        .collect();
    listed.join(", ")
}

impl fmt::Display for Trailers {
    fn fmt(&self, f: &mut fmt::Formatter<'_>) -> fmt::Result {
        write!(
            f,
            "accepted {}, these with a trailer of {}\n\
             masters with a trailer above 0: {}\n\
             by 11 and refused with {}; for a second opening of the other kind, {}",
            listed(["by 01", "by 11"], &self.accepted),
            listed(TRAILERS.map(|(words, _)| words), &self.trailers),
            listed(SENT.map(|(_, words)| words), &self.sent),
            listed(NUMBERS, &self.refused),
            listed(["whole", "cut short"], &self.other_kind),
        )
    }
}

#[cfg(test)]
mod tests {
    use super::*;
    use crate::compare::by_paper;
    use crate::rng::Rng;
    use crate::{productions, ranges, streams, withdrawals};

    #[test]
    fn all_is_met_in_a_short_run() {
        let mut met = Trailers::default();
        for index in 0..1000 {
            for random in [
                streams::random,
                withdrawals::random,
                productions::random,
                ranges::random,
            ] {
                let trial = random(&mut Rng::of_trial(1, index));
                met.add(&trial.stream, &by_paper(&trial));
            }
        }
        let all = [
            &met.accepted[..],
            &met.trailers,
            &met.sent,
            &met.refused,
            &met.other_kind,
        ];
        assert!(all.concat().iter().all(|&times| times > 0), "{met}");
    }
}
