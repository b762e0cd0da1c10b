//! The shelf in the terminal, 80 columns wide.

use std::fmt::{self, Write};

use crate::packing::{Bin, Packing, OF_BOTH};

const COLUMNS: usize = 80;
/// Columns before the bar, and those of the bar within its frame.
const LABEL: usize = 30;
const BAR: usize = COLUMNS - LABEL - 2;

pub struct Drawing<'a>(pub &'a Packing);

impl fmt::Display for Drawing<'_> {
    fn fmt(&self, f: &mut fmt::Formatter<'_>) -> fmt::Result {
        let packing = self.0;
        let (used, units) = packing.units();
        writeln!(f, "{}", packing.opened_with())?;
        let (items, bins) = (packing.items(), packing.bins.len());
        writeln!(
            f,
            "{items} masters in {bins} cartridges, {used} of {units} units; {}",
            packing.besides()
        )?;
        if packing.bins.is_empty() {
            return Ok(());
        }
        if packing.of_both() {
            writeln!(f, "{OF_BOTH}")?;
        }
        let legend = [1, 2, 3, 4].map(|class| format!("{} class {class}", shade(Some(class))));
        writeln!(f, "\n   no class     load     free   {}", legend.join("  "))?;
        let cartridge = |bin: &Bin| Cartridge {
            name: packing.name(bin),
            class: Some(bin.row.class),
            load: bin.row.load.into(),
            free: bin.row.free.into(),
            stored: bin.items.iter().map(|item| packing.stored(item)).collect(),
        };
        let mut cartridges = packing.bins.iter().map(cartridge);
        cartridges.try_for_each(|cartridge| cartridge.write(f, packing.opening.capacity))
    }
}

/// The head of cartridges that have no class.
pub const NO_CLASS: &str = "   no           load     free";

/// A cartridge as it is drawn.
pub struct Cartridge {
    pub name: String,
    /// Fresh ones have none.
    pub class: Option<u8>,
    pub load: u64,
    pub free: u64,
    /// The stored sizes of its masters.
    pub stored: Vec<u64>,
}

impl Cartridge {
    /// Its figures and its bar, and the sizes under that.
    pub fn write(&self, f: &mut fmt::Formatter<'_>, capacity: u32) -> fmt::Result {
        let Self {
            name,
            class,
            load,
            free,
            stored,
        } = self;
        let bar = bar(stored, shade(*class), capacity);
        let class = class.map_or(String::new(), |class| class.to_string());
        writeln!(f, "{name:>5}{class:>6}{load:>9}{free:>9} │{bar}│")?;
        if stored.is_empty() {
            return Ok(());
        }
        write_items(f, stored)
    }
}

/// The shade of a cartridge's masters, by the cartridge's class.
fn shade(class: Option<u8>) -> char {
    match class {
        None | Some(1) => '█',
        Some(2) => '▓',
        Some(3) => '▒',
        Some(_) => '░',
    }
}

/// The items of these stored sizes from left to right, each as long as its share
/// of the capacity.
fn bar(stored: &[u64], shade: char, capacity: u32) -> String {
    let cells = |units: u64| (units * BAR as u64 / u64::from(capacity)) as usize;
    let mut bar = String::new();
    let mut end = 0;
    let mut drawn = 0;
    for size in stored {
        end += size;
        for cell in drawn..cells(end) {
            // A line parts an item from the one before, where there is room.
            let parts = cell == drawn && drawn > 0 && cells(end) - drawn > 1;
            bar.push(if parts { '│' } else { shade });
        }
        drawn = cells(end);
    }
    bar.extend(std::iter::repeat_n(' ', BAR - drawn));
    bar
}

/// The stored sizes under the bar, runs of one size as `SIZExTIMES`.
fn write_items(f: &mut fmt::Formatter<'_>, stored: &[u64]) -> fmt::Result {
    let mut line = String::new();
    for run in stored.chunk_by(|a, b| a == b) {
        let mut word = run[0].to_string();
        if run.len() > 1 {
            write!(word, "x{}", run.len())?;
        }
        if LABEL + 1 + line.len() + 1 + word.len() > COLUMNS {
            writeln!(f, "{:LABEL$} {line}", "")?;
            line.clear();
        }
        if !line.is_empty() {
            line.push(' ');
        }
        line.push_str(&word);
    }
    writeln!(f, "{:LABEL$} {line}", "")
}

#[cfg(test)]
mod tests {
    use super::*;
    use crate::outcome::Shelved;
    use shelf::Production;

    /// The widest shelf: the most bins, the largest numbers, many sizes.
    #[test]
    fn a_drawing_fits_80_columns() {
        for production in Production::BOTH {
            let mut stream = shelf::StreamBuilder::open_with_trailer(16_777_216, 512, 6, 65_535);
            stream.switch(production);
            for i in 0..4_095 {
                stream.shelve([9_000_000, 7_000_000, 6_000_000, 40_000 + i][i as usize % 4]);
            }
            let Shelved { packing, .. } = Shelved::of(stream.bytes()).unwrap();
            assert_eq!(packing.bins.len(), 512);
            for line in Drawing(&packing).to_string().lines() {
                assert!(line.chars().count() <= COLUMNS, "{line}");
            }
        }
    }
}
