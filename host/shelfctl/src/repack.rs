//! What lies on closed cartridges, repacked onto fresh ones.

use std::fmt;

use shelf::{Entry, Production, Repacked, RowRefusal};

use crate::draw::{Cartridge, Drawing, NO_CLASS};
use crate::outcome::Shelved;
use crate::packing::{name_of_both, OF_BOTH};
use crate::plan::Plan;

/// A master, and where it goes.
pub struct Move {
    /// The number of the command that shelved it, or its place in a plan or list.
    pub number: usize,
    pub stored: u32,
    /// The cartridge that it lies on, where that is known.
    pub from: Option<u32>,
    pub to: u16,
}

/// The masters that are repacked together: those of a production, of a plan or of a
/// list.
pub struct Group {
    /// None of a plan or a list.
    pub production: Option<Production>,
    /// The cartridges that its masters lie on, emptied ones too.
    pub old: u32,
    pub new: Repacked,
    /// In the order of the row.
    pub moves: Vec<Move>,
}

/// Masters, each with its number, its stored size and the cartridge it lies on.
type Masters = Vec<(usize, u32, Option<u32>)>;

impl Group {
    /// Repacks these masters.
    fn of(
        production: Option<Production>,
        masters: Masters,
        capacity: u32,
        old: u32,
    ) -> Result<Self, RowRefusal> {
        let sizes: Vec<u32> = masters.iter().map(|&(_, stored, _)| stored).collect();
        let mut answers = vec![0; sizes.len()];
        let new = shelf::repack(&sizes, &mut answers, capacity, old)?;
        let moves = masters.into_iter().zip(answers);
        let moves = moves.map(|((number, stored, from), to)| Move {
            number,
            stored,
            from,
            to,
        });
        Ok(Self {
            production,
            old,
            new,
            moves: moves.collect(),
        })
    }

    /// The moves to a fresh cartridge, in the order in which it is filled: the largest
    /// first, and equal ones as they stand in the row.
    pub fn moves_to(&self, number: u16) -> Vec<&Move> {
        let mut moves: Vec<&Move> = self.moves.iter().filter(|to| to.to == number).collect();
        moves.sort_by_key(|to| std::cmp::Reverse(to.stored));
        moves
    }
}

/// Closed cartridges, and what they are repacked into.
pub struct Repacking<'a> {
    before: Before<'a>,
    pub capacity: u32,
    /// One, or one for each production.
    pub groups: Vec<Group>,
}

/// What is known of the closed cartridges.
enum Before<'a> {
    Shelf(&'a Shelved),
    Plan(&'a Plan),
    /// Nothing but their number.
    Masters,
}

impl<'a> Repacking<'a> {
    /// Repacks a shelf, production by production, where these have opened any
    /// cartridge. What is still shelved is never refused.
    pub fn of_shelf(shelved: &'a Shelved) -> Self {
        let Shelved { items, packing, .. } = shelved;
        let opening = &packing.opening;
        let opened = |production: &Production| items.opened(*production) > 0;
        let mut productions: Vec<Production> =
            Production::BOTH.into_iter().filter(opened).collect();
        if productions.is_empty() {
            productions.push(Production::First);
        }
        let group = |production: Production| {
            let numbers = items.of(production).map(|item| item.command.into());
            let plan = items.plan(opening, production);
            let masters = numbers.zip(plan);
            let masters = masters.map(|(number, Entry { size, bin })| (number, size, Some(bin)));
            let old = items.opened(production).into();
            Group::of(Some(production), masters.collect(), opening.capacity, old)
                .unwrap_or_else(|refusal| panic!("what is still shelved: {refusal}"))
        };
        Self {
            before: Before::Shelf(shelved),
            capacity: opening.capacity,
            groups: productions.into_iter().map(group).collect(),
        }
    }

    /// Repacks the masters of a plan that has passed, or of a list.
    pub fn of_plan(plan: &'a Plan) -> Result<Self, RowRefusal> {
        let from = |place: usize| plan.entries.get(place).map(|entry| entry.bin);
        let masters = plan.sizes().into_iter().enumerate();
        let masters = masters.map(|(place, size)| (place + 1, size, from(place)));
        let group = Group::of(None, masters.collect(), plan.capacity, plan.k)?;
        let before = match plan.is_list() {
            true => Before::Masters,
            false => Before::Plan(plan),
        };
        Ok(Self {
            before,
            capacity: plan.capacity,
            groups: vec![group],
        })
    }

    /// Whether production 1 has cartridges: then a number alone names none.
    fn of_both(&self) -> bool {
        let mut productions = self.groups.iter().map(|group| group.production);
        productions.any(|production| production == Some(Production::Second))
    }

    /// What a fresh cartridge is called.
    pub fn name(&self, group: &Group, number: u16) -> String {
        match group.production.filter(|_| self.of_both()) {
            Some(production) => name_of_both(production, number),
            None => number.to_string(),
        }
    }

    /// The fresh cartridges, as they are drawn.
    fn fresh(&self) -> Vec<Cartridge> {
        let fresh = self.groups.iter().flat_map(|group| {
            (1..=group.new.count).map(move |number| {
                let moves = group.moves_to(number);
                let stored = moves.iter().map(|to| to.stored.into()).collect();
                cartridge(self.name(group, number), stored, self.capacity)
            })
        });
        fresh.collect()
    }

    /// What there was and what there is, group by group.
    fn figures(&self) -> impl Iterator<Item = String> + '_ {
        self.groups.iter().map(|group| {
            let production = group.production.filter(|_| self.of_both());
            let of = production.map_or(String::new(), |production| {
                format!("production {}: ", production.number())
            });
            let (old, Repacked { count, .. }) = (group.old, group.new);
            let saves = match group.new.saves_nothing {
                true => ": the move saves nothing",
                false => "",
            };
            format!("{of}{old} cartridges before, {count} after{saves}")
        })
    }
}

/// A cartridge without a class.
fn cartridge(name: String, stored: Vec<u64>, capacity: u32) -> Cartridge {
    let load = stored.iter().sum();
    Cartridge {
        name,
        class: None,
        load,
        free: u64::from(capacity) - load,
        stored,
    }
}

/// Draws cartridges that have no class.
fn write_all(
    f: &mut fmt::Formatter<'_>,
    cartridges: &[Cartridge],
    capacity: u32,
    note: Option<&str>,
) -> fmt::Result {
    let masters: usize = cartridges.iter().map(|one| one.stored.len()).sum();
    let used: u64 = cartridges.iter().map(|one| one.load).sum();
    let (bins, units) = (
        cartridges.len(),
        u64::from(capacity) * cartridges.len() as u64,
    );
    writeln!(
        f,
        "{masters} masters in {bins} cartridges, {used} of {units} units"
    )?;
    if cartridges.is_empty() {
        return Ok(());
    }
    if let Some(note) = note {
        writeln!(f, "{note}")?;
    }
    writeln!(f, "\n{NO_CLASS}")?;
    let mut cartridges = cartridges.iter();
    cartridges.try_for_each(|cartridge| cartridge.write(f, capacity))
}

/// The cartridges before and after, drawn, and how many they are.
impl fmt::Display for Repacking<'_> {
    fn fmt(&self, f: &mut fmt::Formatter<'_>) -> fmt::Result {
        match self.before {
            Before::Shelf(shelved) => writeln!(f, "before\n{}", Drawing(&shelved.packing))?,
            Before::Plan(plan) => {
                let cartridges: Vec<Cartridge> = (1..=plan.k)
                    .map(|bin| {
                        let own = plan.entries.iter().filter(|entry| entry.bin == bin);
                        let stored = own.map(|entry| entry.size.into()).collect();
                        cartridge(bin.to_string(), stored, plan.capacity)
                    })
                    .collect();
                writeln!(f, "before\ncapacity {}", plan.capacity)?;
                write_all(f, &cartridges, plan.capacity, None)?;
                writeln!(f)?;
            }
            Before::Masters => {}
        }
        writeln!(f, "after\ncapacity {}", self.capacity)?;
        let note = self.of_both().then_some(OF_BOTH);
        write_all(f, &self.fresh(), self.capacity, note)?;
        writeln!(f)?;
        self.figures().try_for_each(|line| writeln!(f, "{line}"))
    }
}

/// The fresh cartridges as a list: a line a cartridge, with the numbers of its
/// masters' commands or their places.
pub struct List<'a>(pub &'a Repacking<'a>);

impl fmt::Display for List<'_> {
    fn fmt(&self, f: &mut fmt::Formatter<'_>) -> fmt::Result {
        let List(repacking) = self;
        let numbers = match repacking.before {
            Before::Shelf(_) => "commands",
            Before::Plan(_) | Before::Masters => "places",
        };
        writeln!(f, "{NO_CLASS}  held  {numbers}")?;
        for group in &repacking.groups {
            for number in 1..=group.new.count {
                let moves = group.moves_to(number);
                let name = repacking.name(group, number);
                let load: u64 = moves.iter().map(|to| u64::from(to.stored)).sum();
                let free = u64::from(repacking.capacity) - load;
                let held = moves.len();
                let numbers: Vec<String> = moves.iter().map(|to| to.number.to_string()).collect();
                let numbers = numbers.join(" ");
                writeln!(f, "{name:>5}{load:>15}{free:>9}{held:>6}  {numbers}")?;
            }
        }
        Ok(())
    }
}

#[cfg(test)]
mod tests {
    use super::*;
    use crate::plan::read_plan;
    use shelf::{RowFault, StreamBuilder};

    /// The groups of a stream: the old count, the new one, and where each goes.
    fn groups(stream: &StreamBuilder) -> Vec<(u32, u16, Vec<u16>)> {
        let shelved = Shelved::of(stream.bytes()).unwrap();
        let groups = Repacking::of_shelf(&shelved).groups;
        let answers = |group: &Group| group.moves.iter().map(|to| to.to).collect();
        groups
            .iter()
            .map(|group| (group.old, group.new.count, answers(group)))
            .collect()
    }

    #[test]
    fn a_production_that_opened_nothing_is_left_out() {
        let mut stream = StreamBuilder::open(60, 9, 6);
        assert_eq!(groups(&stream), [(0, 0, vec![])]);
        stream.switch(Production::Second).shelve(31).shelve(22);
        assert_eq!(groups(&stream), [(2, 1, vec![1, 1])]);
        stream.withdraw(2).withdraw(3).switch(Production::First);
        assert_eq!(groups(&stream), [(2, 0, vec![])]);
        stream.shelve(20).shelve(40);
        assert_eq!(groups(&stream), [(2, 1, vec![1, 1]), (2, 0, vec![])]);
    }

    #[test]
    fn what_counts_is_repacked() {
        let mut stream = StreamBuilder::open_with_trailer(60, 9, 6, 5);
        stream
            .reserve(10, 25)
            .reserve(20, 55)
            .settle(2, 25)
            .shelve(61);
        let shelved = Shelved::of(stream.bytes()).unwrap();
        let Group { moves, .. } = &Repacking::of_shelf(&shelved).groups[0];
        let stored: Vec<_> = moves.iter().map(|to| (to.number, to.stored)).collect();
        assert_eq!(stored, [(1, 30), (2, 30)]);
    }

    #[test]
    fn a_list_has_no_cartridges_before() {
        let plan = read_plan(b"plan 60 3\nmaster 20\nmaster 40").unwrap();
        let repacking = Repacking::of_plan(&plan).unwrap_or_else(|_| panic!("a good list"));
        assert!(repacking.to_string().starts_with("after\n"));
        let plan = read_plan(b"plan 60 3\nput 20 3\nput 40 1").unwrap();
        let repacking = Repacking::of_plan(&plan).unwrap_or_else(|_| panic!("a good plan"));
        assert!(repacking.to_string().starts_with("before\n"));
        let from: Vec<_> = repacking.groups[0].moves.iter().map(|to| to.from).collect();
        assert_eq!(from, [Some(3), Some(1)]);
    }

    #[test]
    fn a_refused_list_is_explained() {
        for (text, fault, sentence) in [
            (
                "\nplan 0 3\nmaster 20",
                RowFault::CapacityOutsideLimits,
                "line 2: the capacity is 0; it must be from 1 to 16777216",
            ),
            (
                "plan 60 3\nmaster 60\n\nmaster 61\nmaster 0",
                RowFault::SizeOutsideLimits,
                "line 4: master 2 is of 61 units; it must be from 1 to the capacity, 60",
            ),
            (
                &format!("plan 60 9999{}", "\nmaster 1".repeat(4097)),
                RowFault::AboveLimit,
                "line 4098: this is master 4097; there may be at most 4096",
            ),
        ] {
            let plan = read_plan(text.as_bytes()).unwrap();
            let refusal = Repacking::of_plan(&plan).err().expect("a bad list");
            assert_eq!(refusal.fault, fault);
            assert_eq!(plan.sentences_of_list(refusal), [sentence]);
        }
    }

    /// The most bins, with the largest numbers.
    #[test]
    fn both_drawings_fit_80_columns() {
        let mut stream = StreamBuilder::open(16_777_216, 512, 6);
        for i in 0..4_094 {
            stream.shelve([9_000_000, 7_000_000, 6_000_000, 4_000 + i][i as usize % 4]);
        }
        stream.switch(Production::Second).shelve(1);
        let shelved = Shelved::of(stream.bytes()).unwrap();
        let repacking = Repacking::of_shelf(&shelved);
        for line in repacking.to_string().lines() {
            assert!(line.chars().count() <= 80, "{line}");
        }
    }
}
