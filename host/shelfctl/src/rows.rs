//! Rows of sizes as people write them, a size a line, and what is said of those
//! that are refused.

use shelf::{RowFault, RowRefusal, MAX_CAPACITY};

use crate::text::{BadText, Line};
use crate::words::{beyond, outside, outside_capacity};

/// The masters of one kind, and the line of the text that each stands on.
#[derive(Debug, Default)]
pub struct Row {
    /// What one of them is called.
    kind: &'static str,
    pub sizes: Vec<u32>,
    pub lines: Vec<usize>,
}

impl Row {
    pub fn of(kind: &'static str) -> Self {
        Self {
            kind,
            ..Self::default()
        }
    }

    /// Reads one more of them: its size is all that its line has.
    pub fn read(&mut self, line: &Line<'_>) -> Result<(), BadText> {
        let [size] = line.operands(["size"])?;
        self.sizes.push(line.value("size", size, None)?);
        self.lines.push(line.number);
        Ok(())
    }

    /// What to say if there are more of them than there may be.
    pub fn too_many(&self) -> Option<String> {
        beyond(&self.lines, self.kind)
    }
}

/// Why these rows were refused, for people. Places count on from each row to the
/// next, and the numbers of the masters do not; the capacity stands on `line`.
pub fn sentences(rows: &[&Row], capacity: u32, line: usize, refusal: RowRefusal) -> Vec<String> {
    match refusal.fault {
        RowFault::CapacityOutsideLimits => {
            let why = outside("capacity", capacity, 1, MAX_CAPACITY);
            why.map(|why| format!("line {line}: {why}"))
                .into_iter()
                .collect()
        }
        RowFault::AboveLimit => rows.iter().filter_map(|row| row.too_many()).collect(),
        RowFault::SizeOutsideLimits => {
            let numbered = rows.iter().flat_map(|row| {
                let masters = row.sizes.iter().zip(&row.lines);
                (1..)
                    .zip(masters)
                    .map(|(number, master)| (row.kind, number, master))
            });
            let faulty = numbered.skip(refusal.place.saturating_sub(1)).take(1);
            let said = faulty.map(|(kind, number, (&size, line))| {
                let why = outside_capacity(size, capacity);
                format!("line {line}: {kind} {number} {why}")
            });
            said.collect()
        }
        // A row that is long enough is lent.
        RowFault::TooFewWords => vec![refusal.to_string()],
    }
}
