//! The shelf as a list: a line a cartridge.

use std::fmt;

use shelf::Row;

use crate::packing::Packing;

pub struct List<'a>(pub &'a Packing);

impl fmt::Display for List<'_> {
    fn fmt(&self, f: &mut fmt::Formatter<'_>) -> fmt::Result {
        writeln!(f, "   no class     load     free  held  commands")?;
        for bin in &self.0.bins {
            let Row {
                class,
                load,
                free,
                held,
                ..
            } = bin.row;
            let name = self.0.name(bin);
            write!(f, "{name:>5}{class:>6}{load:>9}{free:>9}{held:>6}")?;
            let mut before = "  ";
            for command in bin.commands() {
                write!(f, "{before}{command}")?;
                before = " ";
            }
            writeln!(f)?;
        }
        Ok(())
    }
}
