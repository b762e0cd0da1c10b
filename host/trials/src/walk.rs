//! The walk of the count command: what the outside version's own walks have to
//! hand back, and the program that prints a proved one.

use std::fmt;
use std::io::{self, Write};
use std::path::PathBuf;
use std::process::{Command, Output, Stdio};

use crate::paper::{self, Shelved, Walk};
use crate::wire::has_sheet;

/// What is wrong with the paper's walks over a shelf, by the numbers of the
/// request: the figure is that of the bins, and the places read are the lesser
/// of the stock and the figure plus one.
pub fn fault(shelved: &Shelved) -> Option<&'static str> {
    let packing = &shelved.packing;
    let stock = usize::from(packing.opening.stock);
    let productions = packing.productions.iter().zip(shelved.walks);
    let mut walks = productions.flat_map(|(production, last)| {
        let last = (last, production.bins.len());
        production.counts.iter().copied().chain([last])
    });
    walks.find_map(|(walk, bins)| {
        if walk.figure != bins {
            Some("the paper's walk does not count the cartridges")
        } else if walk.places != stock.min(walk.figure + 1) {
            Some("the paper's walk reads too many places, or too few")
        } else {
            None
        }
    })
}

/// What the program has to print of a stream: each production's walk after the
/// last command.
pub fn by_paper(stream: &[u8]) -> String {
    match paper::shelve(stream) {
        Ok(shelved) if has_sheet(stream) => {
            let line = |Walk { figure, places }| format!("{figure} {places}\n");
            shelved.walks.map(line).concat()
        }
        _ => String::new(),
    }
}

/// The program that shelves a stream and prints the walks after it.
pub struct Program(pub PathBuf);

impl Program {
    /// What it prints of a stream; or, where it does not start or fails, why
    /// there is nothing to compare.
    pub fn prints(&self, stream: &[u8]) -> Result<String, String> {
        let name = self.0.display();
        let output = self
            .run(stream)
            .map_err(|error| format!("{name}: {error}"))?;
        if !output.status.success() {
            let said = String::from_utf8_lossy(&output.stderr);
            return Err(format!("{name}: {}\n{said}", output.status));
        }
        Ok(String::from_utf8_lossy(&output.stdout).into_owned())
    }

    /// Whether it prints other walks than the paper's.
    pub fn differs(&self, stream: &[u8]) -> Result<bool, String> {
        Ok(self.prints(stream)? != by_paper(stream))
    }

    fn run(&self, stream: &[u8]) -> io::Result<Output> {
        let mut child = Command::new(&self.0)
            .stdin(Stdio::piped())
            .stdout(Stdio::piped())
            .stderr(Stdio::piped())
            .spawn()?;
        let written = child.stdin.take().map(|mut input| input.write_all(stream));
        match written {
            // It need not read an overlong stream to the end.
            Some(Err(error)) if error.kind() != io::ErrorKind::BrokenPipe => Err(error),
            _ => child.wait_with_output(),
        }
    }
}

/// In how many streams a walk found no bin opened, some of the stock, and all.
#[derive(Default)]
pub struct Found([u64; 3]);

impl Found {
    /// Adds a stream with the figures of its walks.
    pub fn add(&mut self, stock: u16, figures: impl Iterator<Item = usize>) {
        let mut found = [false; 3];
        for figure in figures {
            found[match figure {
                0 => 0,
                figure if figure < stock.into() => 1,
                _ => 2,
            }] = true;
        }
        for (streams, found) in self.0.iter_mut().zip(found) {
            *streams += u64::from(found);
        }
    }
}

impl fmt::Display for Found {
    fn fmt(&self, f: &mut fmt::Formatter<'_>) -> fmt::Result {
        let [none, some, all] = self.0;
        write!(
            f,
            "{none} with none opened, {some} with some, {all} with the whole stock"
        )
    }
}

#[cfg(test)]
mod tests {
    use super::*;
    use crate::cases::sample;
    use crate::wire::PRODUCTIONS;

    fn sample_shelved() -> Shelved {
        paper::shelve(&sample()).expect("a stream without a fault")
    }

    #[test]
    fn a_wrong_walk_is_found() {
        let right = sample_shelved();
        assert_eq!(fault(&right), None);
        let walks = right.walks.map(|Walk { figure, places }| (figure, places));
        assert_eq!(walks, [(4, 4), (0, 1)]);
        for (figure, places) in [(4, 5), (4, 3), (3, 4), (5, 4), (3, 3)] {
            let wrong = Walk { figure, places };
            for production in 0..PRODUCTIONS {
                let mut shelved = sample_shelved();
                shelved.walks[production] = wrong;
                assert!(fault(&shelved).is_some(), "after the last: {wrong:?}");
            }
            let mut shelved = sample_shelved();
            shelved.packing.productions[0].counts[0].0 = wrong;
            assert!(fault(&shelved).is_some(), "at the count: {wrong:?}");
        }
    }

    #[test]
    fn a_program_that_does_not_run_is_no_difference() {
        for name in ["false", "no-such-program"] {
            assert!(Program(name.into()).differs(&sample()).is_err(), "{name}");
        }
    }

    #[test]
    fn what_is_printed_is_compared() {
        assert_eq!(by_paper(&sample()), "4 4\n0 1\n");
        // It prints nothing, and reads nothing of a stream that fills its pipe.
        let silent = Program("true".into());
        assert_eq!(silent.differs(&sample()), Ok(true));
        assert_eq!(silent.differs(&[0x03; 1 << 20]), Ok(false));
    }
}
