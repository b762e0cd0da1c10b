//! Plans as people write them, and what the checker says of one.

use shelf::{Entry, PlanFault, PlanRefusal, RowRefusal, MAX_CAPACITY, MAX_ENTRIES};

use crate::rows::{self, Row};
use crate::text::{bad, commands, headed, BadText, Line};
use crate::words::{beyond, outside, outside_capacity};

/// A plan, and the line of the text that each of its parts stands on.
#[derive(Debug, Default)]
pub struct Plan {
    pub capacity: u32,
    pub k: u32,
    line: usize,
    pub entries: Vec<Entry>,
    entry_lines: Vec<usize>,
    /// Empty where the text has none; the masters are the entries' own then.
    masters: Row,
}

/// Whether a text is a plan: `plan` is its first word.
pub fn is_plan(text: &[u8]) -> bool {
    let first = commands(text).next();
    matches!(first, Some(Ok(line)) if line.command == "plan")
}

/// Reads a text with `plan CAPACITY K` first, then `master SIZE` for each
/// master and `put SIZE CARTRIDGE` for each entry, each in order.
pub fn read_plan(text: &[u8]) -> Result<Plan, BadText> {
    let (head, lines) = headed(text, "plan", "capacity k")?;
    let mut plan = read_head(&head)?;
    for line in lines {
        let line = line?;
        match line.command {
            "master" => plan.masters.read(&line)?,
            "put" => {
                let [size, bin] = line.operands(["size", "cartridge"])?;
                plan.entries.push(Entry {
                    size: line.value("size", size, None)?,
                    bin: line.value("cartridge", bin, None)?,
                });
                plan.entry_lines.push(line.number);
            }
            "plan" => return bad(line.number, "there is a plan already"),
            other => {
                let message = format!("`{other}` is no line of a plan: master or put");
                return bad(line.number, message);
            }
        }
    }
    Ok(plan)
}

fn read_head(line: &Line<'_>) -> Result<Plan, BadText> {
    let [capacity, k] = line.operands(["capacity", "k"])?;
    Ok(Plan {
        capacity: line.value("capacity", capacity, Some((1, MAX_CAPACITY.into())))?,
        k: line.value("k", k, Some((0, MAX_ENTRIES as u64)))?,
        line: line.number,
        masters: Row::of("master"),
        ..Plan::default()
    })
}

impl Plan {
    pub fn check(&self) -> Result<(), PlanRefusal> {
        shelf::check_plan(&self.entries, &self.sizes(), self.capacity, self.k)
    }

    /// The sizes of its masters.
    pub fn sizes(&self) -> Vec<u32> {
        if self.masters.sizes.is_empty() {
            return self.entries.iter().map(|entry| entry.size).collect();
        }
        self.masters.sizes.clone()
    }

    /// Whether it is a list of masters, and does not say where any of them lies.
    pub fn is_list(&self) -> bool {
        self.entries.is_empty() && !self.masters.sizes.is_empty()
    }

    /// Why the checker refused this plan, for people.
    pub fn sentences(&self, refusal: PlanRefusal) -> Vec<String> {
        let place = refusal.place;
        let (line, why) = match refusal.fault {
            PlanFault::CapacityOutsideLimits => {
                let why = outside("capacity", self.capacity, 1, MAX_CAPACITY);
                (self.line, why.unwrap_or_default())
            }
            PlanFault::AboveLimit => return self.above_limit(),
            PlanFault::OtherItems => self.other_masters(place),
            PlanFault::EntrySize | PlanFault::EntryBin | PlanFault::Overfull => {
                (self.entry_lines[place - 1], self.misplaced(refusal))
            }
        };
        vec![format!("line {line}: {why}")]
    }

    /// Why a list of masters was not repacked, for people.
    pub fn sentences_of_list(&self, refusal: RowRefusal) -> Vec<String> {
        rows::sentences(&[&self.masters], self.capacity, self.line, refusal)
    }

    /// Whichever of k, the entries and the masters are above the limit.
    fn above_limit(&self) -> Vec<String> {
        let most = MAX_ENTRIES as u32;
        let k = outside("k", self.k, 0, most).map(|why| format!("line {}: {why}", self.line));
        let entries = beyond(&self.entry_lines, "entry");
        let masters = self.masters.too_many();
        [k, entries, masters].into_iter().flatten().collect()
    }

    /// Where entries and masters part: one of them is missing, or their sizes
    /// differ.
    fn other_masters(&self, place: usize) -> (usize, String) {
        let entry = self.entries.get(place - 1);
        let master = self.masters.sizes.get(place - 1);
        match (entry, master) {
            (Some(entry), Some(master)) => {
                let (size, line) = (entry.size, self.masters.lines[place - 1]);
                let why = format!(
                    "entry {place} is of {size} units, master {place} (line {line}) of {master}"
                );
                (self.entry_lines[place - 1], why)
            }
            (Some(_), None) => {
                let why = format!("entry {place} has no master: there are {}", place - 1);
                (self.entry_lines[place - 1], why)
            }
            _ => {
                let why = format!("master {place} has no entry: there are {}", place - 1);
                (self.masters.lines[place - 1], why)
            }
        }
    }

    /// What one entry does wrong in its cartridge.
    fn misplaced(&self, PlanRefusal { fault, place }: PlanRefusal) -> String {
        let Entry { size, bin } = self.entries[place - 1];
        let (capacity, k) = (self.capacity, self.k);
        match fault {
            PlanFault::EntrySize => format!("entry {place} {}", outside_capacity(size, capacity)),
            PlanFault::EntryBin => {
                format!("entry {place} is put into cartridge {bin}; it must be from 1 to k, {k}")
            }
            _ => {
                let until = self.entries[..place].iter();
                let held = until.filter(|entry| entry.bin == bin);
                let load: u64 = held.map(|entry| u64::from(entry.size)).sum();
                let over = format!("holds {load}; the capacity is {capacity}");
                format!("with entry {place} of {size} units cartridge {bin} {over}")
            }
        }
    }
}

#[cfg(test)]
mod tests {
    use super::*;

    /// The refusal's number and place, and the sentences.
    fn refused(text: &str) -> (u32, usize, Vec<String>) {
        let plan = read_plan(text.as_bytes()).unwrap();
        let refusal = plan.check().unwrap_err();
        let sentences = plan.sentences(refusal);
        (refusal.fault.number(), refusal.place, sentences)
    }

    fn one(number: u32, place: usize, sentence: &str) -> (u32, usize, Vec<String>) {
        (number, place, vec![sentence.to_string()])
    }

    fn passes(text: &str) -> bool {
        read_plan(text.as_bytes()).unwrap().check().is_ok()
    }

    #[test]
    fn good_plans_pass() {
        assert!(passes("plan 60 0"));
        assert!(passes("plan 60 1\nput 30 1\nput 30 1"));
        assert!(passes(
            "# two\nplan 60 9\nmaster 30\nput 30 1\nput 31 2\r\nmaster 31"
        ));
    }

    #[test]
    fn each_refusal_has_its_line() {
        assert_eq!(
            refused("\nplan 0 1"),
            one(
                11,
                0,
                "line 2: the capacity is 0; it must be from 1 to 16777216"
            )
        );
        assert_eq!(
            refused("plan 60 4097"),
            one(12, 0, "line 1: the k is 4097; it must be from 0 to 4096")
        );
        assert_eq!(
            refused("plan 60 1\nput 30 1\n\nput 61 1"),
            one(
                13,
                2,
                "line 4: entry 2 is of 61 units; it must be from 1 to the capacity, 60"
            )
        );
        assert_eq!(
            refused("plan 60 1\nput 30 2"),
            one(
                14,
                1,
                "line 2: entry 1 is put into cartridge 2; it must be from 1 to k, 1"
            )
        );
        assert_eq!(
            refused("plan 60 2\nput 30 1\nput 30 2\nput 31 1"),
            one(
                15,
                3,
                "line 4: with entry 3 of 31 units cartridge 1 holds 61; the capacity is 60"
            )
        );
        assert_eq!(
            refused("plan 60 2\nmaster 30\nput 31 1"),
            one(
                16,
                1,
                "line 3: entry 1 is of 31 units, master 1 (line 2) of 30"
            )
        );
        assert_eq!(
            refused("plan 60 2\nmaster 30\nput 30 1\nput 30 1"),
            one(16, 2, "line 4: entry 2 has no master: there are 1")
        );
        assert_eq!(
            refused("plan 60 2\nmaster 30\nmaster 30"),
            one(16, 1, "line 2: master 1 has no entry: there are 0")
        );
    }

    #[test]
    fn a_long_plan_says_where_it_is_too_long() {
        let text = format!("plan 60 5000{}", "\nput 1 1\nmaster 1".repeat(4097));
        let (number, place, sentences) = refused(&text);
        assert_eq!((number, place), (12, 0));
        assert_eq!(
            sentences,
            [
                "line 1: the k is 5000; it must be from 0 to 4096",
                "line 8194: this is entry 4097; there may be at most 4096",
                "line 8195: this is master 4097; there may be at most 4096",
            ]
        );
    }

    #[test]
    fn bad_text_is_refused_with_its_line() {
        let line = |text: &str| read_plan(text.as_bytes()).unwrap_err().line;
        assert_eq!(line(""), 1);
        assert_eq!(line("\nput 1 1"), 2);
        assert_eq!(line("plan 60"), 1);
        assert_eq!(line("plan 60 1\nplan 60 1"), 2);
        assert_eq!(line("plan 60 1\nput 1"), 2);
        assert_eq!(line("plan 60 1\n\nmaster x"), 3);
        assert_eq!(line("plan 60 1\nput 1 4294967296"), 2);
        assert_eq!(line("plan 60 1\nfoo"), 2);
    }
}
