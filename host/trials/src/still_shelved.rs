//! Which items are still shelved, by the answers alone and without the method;
//! and what has to go by them: two of the totals, the counts, the vault sheet and
//! each production's own plan.

use crate::compare::{plan_by_library, Outcome};
use crate::figures::{on_sheet, Figures};
use crate::plans::PlanTrial;
use crate::streams::StreamTrial;
use crate::wire::{answer, entry_size, has_sheet, Command, Opening, Stream, PRODUCTIONS};

/// An item on the shelf as the answers tell it.
#[derive(Clone, Copy)]
struct Item {
    production: usize,
    /// Its stored size: as settled, or the greatest till then.
    size: u64,
    bin: u16,
    /// The least and the greatest that it may be settled at, till it is.
    range: Option<(u32, u32)>,
}

/// The shelf as the answers tell it.
struct Told {
    opening: Opening,
    /// The production that the next command belongs to.
    current: usize,
    /// The item of each command so far, while it is shelved.
    items: Vec<Option<Item>>,
    /// The bins that each production opened, emptied or not.
    opened: [u16; PRODUCTIONS],
}

impl Told {
    /// Nothing is told yet.
    fn new(opening: Opening) -> Self {
        Self {
            opening,
            current: 0,
            items: Vec::new(),
            opened: [0; PRODUCTIONS],
        }
    }

    /// All of a stream is told by these words, or it is said why it cannot be.
    fn after(stream: &Stream, words: &[u16]) -> Result<Self, &'static str> {
        let mut told = Self::new(stream.opening);
        for (&command, &word) in stream.commands.iter().zip(words) {
            told.take_in(command, word)?;
        }
        Ok(told)
    }

    /// Takes in the answer to the next command, or says why it cannot be
    /// answered so.
    fn take_in(&mut self, command: Command, word: u16) -> Result<(), &'static str> {
        let item = match command {
            Command::Shelve(size) => self.place(size, None, answer(word))?,
            Command::Reserve(least, greatest) => {
                self.place(greatest, Some((least, greatest)), answer(word))?
            }
            _ => {
                self.take_in_no_item(command, answer(word))?;
                None
            }
        };
        self.items.push(item);
        Ok(())
    }

    /// The item of this size, or of this range and shelved by the greatest, if it is
    /// placed.
    fn place(
        &mut self,
        size: u32,
        range: Option<(u32, u32)>,
        answer: Result<u16, u16>,
    ) -> Result<Option<Item>, &'static str> {
        let production = self.current;
        let opened = self.opened[production];
        let is_spent = self.opened.iter().sum::<u16>() == self.opening.stock;
        let is_wrong = range.is_some_and(|(least, greatest)| least == 0 || least > greatest);
        match answer {
            Err(19) if is_wrong => Ok(None),
            _ if is_wrong => Err("a range that is wrong is not refused with 19"),
            Err(19) if range.is_some() => Err("a range is refused with 19 that is not wrong"),
            Err(10) if !is_spent => {
                Err("a master is refused with 10 though the stock is not spent")
            }
            Err(9 | 10) => Ok(None),
            Err(8) if range.is_none() => Ok(None),
            Err(_) => Err("a command is answered with a refusal that is not its own"),
            Ok(bin) if !(1..=opened + 1).contains(&bin) => Err("a cartridge is opened out of turn"),
            Ok(bin) if bin > opened && is_spent => {
                Err("a cartridge is opened though the stock is spent")
            }
            Ok(bin) => {
                self.opened[production] = opened.max(bin);
                Ok(Some(Item {
                    production,
                    size: self.opening.stored(size),
                    bin,
                    range,
                }))
            }
        }
    }

    /// The same of a command that sends no item.
    fn take_in_no_item(
        &mut self,
        command: Command,
        answer: Result<u16, u16>,
    ) -> Result<(), &'static str> {
        match (command, answer) {
            (Command::Count, Ok(figure)) if figure == self.opened[self.current] => Ok(()),
            (Command::Count, Ok(_)) => {
                Err("a count is not of every cartridge that the production opened")
            }
            (Command::Withdraw(named), Ok(bin)) => match self.named(named).and_then(Option::take) {
                Some(item) if item.bin == bin => Ok(()),
                Some(_) => Err("a master leaves another cartridge than it was answered"),
                None => Err("a master is taken out that is not on the shelf"),
            },
            (Command::Withdraw(named), Err(17)) => match self.named(named) {
                None => Ok(()),
                Some(_) => Err("a master that is on the shelf is not taken out"),
            },
            (Command::Settle(named, size), answer) => self.settle(named, size, answer),
            (Command::Switch(to), Ok(byte)) if byte == to.into() => {
                self.current = to.into();
                Ok(())
            }
            (Command::Switch(_), Ok(_)) => Err("a switch is not answered by its byte"),
            _ => Err("a command is answered with a refusal that is not its own"),
        }
    }

    /// Settles the item of the command with this number.
    fn settle(
        &mut self,
        number: u16,
        size: u32,
        answer: Result<u16, u16>,
    ) -> Result<(), &'static str> {
        let stored = self.opening.stored(size);
        let item = self.named(number).and_then(Option::as_mut);
        let waits = item.and_then(|item| Some((item.range?, item)));
        match (waits, answer) {
            (None, Err(20)) => Ok(()),
            (None, Err(21)) => Err("a refusal 21 comes before 20"),
            (None, Ok(_)) => Err("a master is settled that does not wait for it"),
            (Some(_), Err(20)) => Err("a master that waits to be settled is refused with 20"),
            (Some(((least, greatest), item)), answer) => {
                let within = (least..=greatest).contains(&size);
                match answer {
                    Err(21) if within => Err("a size within its range is refused with 21"),
                    Err(21) => Ok(()),
                    Ok(_) if !within => Err("a master is settled outside its range"),
                    Ok(bin) if bin == item.bin => {
                        item.size = stored;
                        item.range = None;
                        Ok(())
                    }
                    Ok(_) => Err("a master is settled on another cartridge than it was answered"),
                    Err(_) => Err("a command is answered with a refusal that is not its own"),
                }
            }
            _ => Err("a command is answered with a refusal that is not its own"),
        }
    }

    /// The item of the command with this number, if it is on the shelf of the
    /// current production.
    fn named(&mut self, number: u16) -> Option<&mut Option<Item>> {
        let place = usize::from(number).checked_sub(1)?;
        let current = self.current;
        let item = self.items.get_mut(place)?;
        let is_own = item.is_some_and(|item| item.production == current);
        is_own.then_some(item)
    }

    /// The items of a production in the order of their commands.
    fn shelved(&self, production: usize) -> impl Iterator<Item = Item> + '_ {
        let items = self.items.iter().copied().flatten();
        items.filter(move |item| item.production == production)
    }

    /// The load of each bin of a production, and how many items it holds.
    fn loads_and_held(&self, production: usize) -> (Figures, Figures) {
        let bins = 1..=self.opened[production];
        let none: Figures = bins.map(|bin| (bin, 0)).collect();
        let (mut loads, mut held) = (none.clone(), none);
        for Item { size, bin, .. } in self.shelved(production) {
            loads[usize::from(bin) - 1].1 += size;
            held[usize::from(bin) - 1].1 += 1;
        }
        (loads, held)
    }

    /// The plan of each production.
    fn own_plans(&self) -> impl Iterator<Item = PlanTrial> + '_ {
        (0..PRODUCTIONS).map(|production| self.own_plan(production))
    }

    /// The plan of a production's items, with k the number that it opened.
    fn own_plan(&self, production: usize) -> PlanTrial {
        let items = self.shelved(production);
        let (items, bins): (Vec<u32>, Vec<u32>) = items
            .map(|Item { size, bin, .. }| (entry_size(size), u32::from(bin)))
            .unzip();
        PlanTrial {
            kind: "own plan",
            sizes: items.clone(),
            bins,
            items,
            capacity: self.opening.capacity,
            k: self.opened[production].into(),
        }
    }
}

/// Each production's own plan after an accepted stream that was answered with these
/// words.
pub fn own_plans(stream: &Stream, words: &[u16]) -> Result<Vec<PlanTrial>, &'static str> {
    let told = Told::after(stream, words)?;
    Ok(told.own_plans().collect())
}

/// What is wrong with the items that an accepted stream leaves shelved.
pub fn fault(trial: &StreamTrial, outcome: &Outcome) -> Option<&'static str> {
    let totals = outcome.totals()?;
    let stream = Stream::read(&trial.stream).ok()?;
    let told = match Told::after(&stream, outcome.rows.answers()) {
        Ok(told) => told,
        Err(fault) => return Some(fault),
    };
    let items = told.items.iter().flatten().count();
    let opened = usize::from(told.opened.iter().sum::<u16>());
    if (totals.items, totals.opened) != (items, opened) {
        return Some("the totals are not of what is still shelved and was opened");
    }
    let productions = (0..PRODUCTIONS).map(|production| told.loads_and_held(production));
    let (loads, held): (Vec<Figures>, Vec<Figures>) = productions.unzip();
    let has_sheet = has_sheet(&trial.stream);
    if has_sheet && on_sheet(&outcome.sheet, 8..=15) != Some(loads.concat()) {
        return Some("the loads of the sheet are not of what is still shelved");
    }
    if has_sheet && on_sheet(&outcome.sheet, 26..=29) != Some(held.concat()) {
        return Some("the sheet does not hold what is still shelved");
    }
    let mut plans = told.own_plans();
    if plans.any(|plan| plan_by_library(&plan) != Some(Ok(()))) {
        return Some("a production's own plan does not pass");
    }
    None
}

#[cfg(test)]
mod tests {
    use super::*;
    use crate::cases::{case, sent, totals};
    use crate::paper::Totals;
    use crate::rows::Lent;
    use crate::wire::Command::{Count, Reserve, Settle, Shelve, Switch, Withdraw};
    use crate::wire::{opening, refused_word as r};
    use crate::written::Written;

    /// Two masters on one cartridge and one on another; the first is taken out
    /// twice, which leaves 22 and 35.
    const COMMANDS: [Command; 8] = [
        Shelve(22),
        Shelve(22),
        Shelve(35),
        Withdraw(1),
        Withdraw(1),
        Count,
        Shelve(61),
        Withdraw(7),
    ];
    const OPEN: Opening = opening(60, 4, 6);
    const WORDS: [u16; 8] = [1, 1, 2, 1, r(17), 2, r(9), r(17)];
    const FREE: [u32; 8] = [38, 16, 25, 38, 0, 0, 0, 0];
    const TOTALS: Totals = totals(2, 2, 3);

    fn trial(commands: &[Command]) -> StreamTrial {
        case(sent(OPEN, commands), Lent::both(COMMANDS.len()))
    }

    /// The fault of the stream if it is answered with these words and totals.
    fn found(words: &[u16], totals: Totals) -> Option<&'static str> {
        let trial = trial(&COMMANDS);
        fault(&trial, &Outcome::accepted(&trial, totals, words, &FREE))
    }

    #[test]
    fn a_wrong_answer_is_found() {
        assert_eq!(found(&WORDS, TOTALS), None);
        for (place, word, expected) in [
            (0, 2, "a cartridge is opened out of turn"),
            (2, 3, "a cartridge is opened out of turn"),
            (
                3,
                2,
                "a master leaves another cartridge than it was answered",
            ),
            (3, r(17), "a master that is on the shelf is not taken out"),
            (4, 1, "a master is taken out that is not on the shelf"),
            (7, 1, "a master is taken out that is not on the shelf"),
            (
                4,
                r(10),
                "a command is answered with a refusal that is not its own",
            ),
            (
                6,
                r(17),
                "a command is answered with a refusal that is not its own",
            ),
            (
                5,
                1,
                "a count is not of every cartridge that the production opened",
            ),
            (
                5,
                3,
                "a count is not of every cartridge that the production opened",
            ),
        ] {
            let mut words = WORDS;
            words[place] = word;
            assert_eq!(found(&words, TOTALS), Some(expected), "{place}: {word}");
        }
    }

    #[test]
    fn a_wrong_answer_of_either_production_is_found() {
        let stream = |stock: u16| {
            let commands = [
                Shelve(35),
                Switch(1),
                Shelve(40),
                Withdraw(1),
                Count,
                Switch(0),
                Shelve(30),
                Withdraw(3),
            ];
            sent(opening(60, stock, 6), &commands)
        };
        let found = |stock: u16, place: usize, word: u16| {
            let mut words = [1, 1, 1, r(17), 1, 0, 2, r(17)];
            words[place] = word;
            let trial = case(stream(stock), Lent::both(words.len()));
            let free = [25, 0, 20, 0, 0, 0, 30, 0];
            let outcome = Outcome::accepted(&trial, totals(3, 3, 1), &words, &free);
            fault(&trial, &outcome)
        };
        assert_eq!(found(3, 0, 1), None);
        for (stock, place, word, expected) in [
            (3, 1, 0, "a switch is not answered by its byte"),
            (
                3,
                5,
                r(17),
                "a command is answered with a refusal that is not its own",
            ),
            (3, 2, 2, "a cartridge is opened out of turn"),
            (3, 3, 1, "a master is taken out that is not on the shelf"),
            (
                3,
                4,
                2,
                "a count is not of every cartridge that the production opened",
            ),
            (
                3,
                6,
                r(10),
                "a master is refused with 10 though the stock is not spent",
            ),
            (2, 6, 2, "a cartridge is opened though the stock is spent"),
            (3, 7, 1, "a master is taken out that is not on the shelf"),
        ] {
            assert_eq!(found(stock, place, word), Some(expected), "{place}: {word}");
        }
    }

    /// One of 30 to 35, settled at 31 after a size above and one below, and again;
    /// one of a wrong range, and one of no range settled.
    #[test]
    fn a_wrong_answer_about_a_range_is_found() {
        let commands = [
            Reserve(30, 35),
            Reserve(6, 5),
            Settle(1, 36),
            Settle(1, 29),
            Settle(1, 31),
            Settle(1, 31),
            Shelve(22),
            Settle(7, 22),
            Settle(0, 1),
            Withdraw(1),
            Settle(1, 31),
            Reserve(20, 20),
        ];
        const RIGHT: [u16; 12] = [
            1,
            r(19),
            r(21),
            r(21),
            1,
            r(20),
            2,
            r(20),
            r(20),
            1,
            r(20),
            3,
        ];
        let trial = case(sent(OPEN, &commands), Lent::both(RIGHT.len()));
        let found = |place: usize, word: u16| {
            let mut words = RIGHT;
            words[place] = word;
            let outcome = Outcome::accepted(&trial, totals(2, 3, 1), &words, &[0; 12]);
            fault(&trial, &outcome)
        };
        assert_eq!(found(0, 1), None);
        let not_its_own = "a command is answered with a refusal that is not its own";
        for (place, word, expected) in [
            (0, r(19), "a range is refused with 19 that is not wrong"),
            (0, r(8), not_its_own),
            (1, r(8), "a range that is wrong is not refused with 19"),
            (1, 2, "a range that is wrong is not refused with 19"),
            (2, 1, "a master is settled outside its range"),
            (3, 1, "a master is settled outside its range"),
            (
                2,
                r(20),
                "a master that waits to be settled is refused with 20",
            ),
            (
                4,
                r(20),
                "a master that waits to be settled is refused with 20",
            ),
            (4, r(21), "a size within its range is refused with 21"),
            (4, r(17), not_its_own),
            (
                4,
                2,
                "a master is settled on another cartridge than it was answered",
            ),
            (5, 1, "a master is settled that does not wait for it"),
            (5, r(21), "a refusal 21 comes before 20"),
            (5, r(17), not_its_own),
            (6, r(19), not_its_own),
            (7, 2, "a master is settled that does not wait for it"),
            (8, 1, "a master is settled that does not wait for it"),
            (9, r(20), not_its_own),
            (10, 1, "a master is settled that does not wait for it"),
            (11, 4, "a cartridge is opened out of turn"),
        ] {
            assert_eq!(found(place, word), Some(expected), "{place}: {word}");
        }
    }

    /// The plan has the settled size, or the greatest till then.
    #[test]
    fn the_own_plan_goes_by_settled_sizes() {
        let mut told = Told::new(OPEN.with_trailer(2));
        for (command, word) in [
            (Reserve(5, 33), 1),
            (Settle(1, 9), 1),
            (Reserve(5, 33), 1),
            (Switch(1), 1),
            (Settle(3, 9), r(20)),
            (Reserve(1, 1), 1),
        ] {
            told.take_in(command, word).expect("a right answer");
        }
        let plans = [0, 1].map(|production| told.own_plan(production).entries());
        assert_eq!(plans, [vec![(11, 1), (35, 1)], vec![(3, 1)]]);
    }

    #[test]
    fn wrong_totals_are_found() {
        let expected = Some("the totals are not of what is still shelved and was opened");
        for (items, opened) in [(3, 2), (1, 2), (2, 1), (2, 3)] {
            let totals = totals(items, opened, 3);
            assert_eq!(found(&WORDS, totals), expected, "{totals:?}");
        }
    }

    #[test]
    fn a_wrong_sheet_is_found() {
        let lines = [
            "PAGE   1                                \n",
            "   1 3       22       38    1           \n",
            "   2 1       35       25    1           \n",
        ];
        let trial = trial(&COMMANDS);
        let mut outcome = Outcome::accepted(&trial, TOTALS, &WORDS, &FREE);
        let mut with = |lines: &[&str]| {
            outcome.sheet = Written::text(trial.fill, &lines.concat());
            fault(&trial, &outcome)
        };
        assert_eq!(with(&lines), None);
        let load = "   1 3       44       38    1           \n";
        let held = "   1 3       22       38    2           \n";
        let loads = Some("the loads of the sheet are not of what is still shelved");
        assert_eq!(with(&[lines[0], load, lines[2]]), loads);
        assert_eq!(with(&lines[..2]), loads);
        assert_eq!(with(&["X 1 0\n"]), loads);
        let holds = Some("the sheet does not hold what is still shelved");
        assert_eq!(with(&[lines[0], held, lines[2]]), holds);
    }

    /// The plan is of what is still shelved: with the one taken out, or with a
    /// k of the cartridges that hold something, it would not pass.
    #[test]
    fn the_own_plan_goes_by_what_is_still_shelved() {
        let mut told = Told::new(OPEN);
        for (command, word) in COMMANDS.into_iter().zip(WORDS) {
            told.take_in(command, word).expect("a right answer");
        }
        let plan = told.own_plan(0);
        assert_eq!((plan.entries(), plan.k), (vec![(22, 1), (35, 2)], 2));
        told.take_in(Withdraw(2), 1).expect("a right answer");
        let plan = told.own_plan(0);
        assert_eq!((plan.entries(), plan.k), (vec![(35, 2)], 2));
        let fewer = PlanTrial { k: 1, ..plan };
        assert!(plan_by_library(&fewer).is_some_and(|verdict| verdict.is_err()));
    }

    #[test]
    fn each_production_has_a_plan_of_its_own() {
        let mut told = Told::new(OPEN);
        let commands = [Shelve(35), Switch(1), Shelve(40), Shelve(22), Withdraw(3)];
        for (command, word) in commands.into_iter().zip([1, 1, 1, 2, 1]) {
            told.take_in(command, word).expect("a right answer");
        }
        let plans = [0, 1].map(|production| told.own_plan(production));
        let plans = plans.map(|plan| (plan.entries(), plan.k));
        assert_eq!(plans, [(vec![(35, 1)], 1), (vec![(22, 2)], 2)]);
    }

    #[test]
    fn loads_and_plans_have_the_trailers() {
        let opening = OPEN.with_trailer(5);
        let commands = [Shelve(17), Shelve(17), Shelve(30), Withdraw(1)];
        let words = [1, 1, 2, 1];
        let mut told = Told::new(opening);
        for (command, word) in commands.into_iter().zip(words) {
            told.take_in(command, word).expect("a right answer");
        }
        assert_eq!(told.own_plan(0).entries(), [(22, 1), (35, 2)]);

        let trial = case(sent(opening, &commands), Lent::both(4));
        let mut outcome = Outcome::accepted(&trial, TOTALS, &words, &FREE[..4]);
        assert_eq!(fault(&trial, &outcome), None);
        let bare = [
            "PAGE   1                                \n",
            "   1 3       17       38    1           \n",
            "   2 1       30       25    1           \n",
        ];
        outcome.sheet = Written::text(trial.fill, &bare.concat());
        let expected = Some("the loads of the sheet are not of what is still shelved");
        assert_eq!(fault(&trial, &outcome), expected);

        // What no entry of a plan can say is in no plan that passes.
        told.take_in(Shelve(u32::MAX), 3).expect("a number in turn");
        assert_eq!(told.own_plan(0).entries()[2], (u32::MAX, 3));
        assert!(plan_by_library(&told.own_plan(0)).is_some_and(|verdict| verdict.is_err()));
    }

    #[test]
    fn a_plan_that_does_not_pass_is_found() {
        let commands = [Shelve(35), Shelve(35), Withdraw(1), Shelve(35)];
        let trial = trial(&commands);
        // The third on top of the second, which has not left.
        let mut outcome = Outcome::accepted(&trial, TOTALS, &[1, 2, 1, 2], &FREE[..4]);
        let lines = [
            "PAGE   1                                \n",
            "   1 1        0       60    0           \n",
            "   2 1       70        0    2           \n",
        ];
        outcome.sheet = Written::text(trial.fill, &lines.concat());
        let expected = Some("a production's own plan does not pass");
        assert_eq!(fault(&trial, &outcome), expected);
    }
}
