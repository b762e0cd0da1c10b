//! The count's cases by name, their figures and places written out from the
//! request: the words of the counts, and each production's walk after the last
//! command.

use crate::cases::{case, sample, sent, Cases};
use crate::compare::{by_paper, Outcome};
use crate::paper;
use crate::rows::Lent;
use crate::walk::{self, Program};
use crate::wire::Command::{self, Count, Reserve, Settle, Shelve, Switch, Withdraw};
use crate::wire::{opening, Opening, Stream, MOST_COMMANDS, MOST_PRINTED};

const OPEN: Opening = opening(60, 512, 6);

/// What goes into one bin after another, from place 0: the first of these sizes
/// opens the bin, and the others open none.
type Sizes = fn(usize) -> &'static [u32];

const SHELVES: [(&str, Sizes); 3] = [
    ("all full", |_| &[60]),
    ("all with space", |_| &[31]),
    ("of mixed classes", mixed_classes),
];

fn mixed_classes(place: usize) -> &'static [u32] {
    match place % 4 {
        0 => &[31],
        1 => &[30, 30],
        2 => &[20, 20, 20],
        // Two B2 a bin; but each sixth joins a 31, and is the second of three
        // here, the last of three there.
        _ => match place / 4 % 5 {
            2 | 4 => &[22, 22, 22],
            _ => &[22, 22],
        },
    }
}

/// Tries the walks, on the program too if one is given; the error is that it
/// cannot be run.
pub fn run(cases: &mut Cases, program: Option<&Program>) -> Result<(), String> {
    let mut walks = Walks { cases, program };
    walks.walked("the walk after the sample", &sample(), &[4], "4 4\n0 1\n")?;
    walks.trailers()?;
    walks.ranges()?;
    for stock in [1, 2, 3, 50, 511, 512] {
        walks.none_opened(stock)?;
        for (shelf, sizes) in SHELVES {
            walks.shelves(stock, shelf, sizes)?;
        }
    }
    walks.two_productions()?;
    walks.longest_streams()?;
    walks.refused_streams()
}

struct Walks<'a> {
    cases: &'a mut Cases,
    program: Option<&'a Program>,
}

impl Walks<'_> {
    /// A stream in which the counts are these figures, and of which the program
    /// prints this.
    fn walked(
        &mut self,
        name: &str,
        stream: &[u8],
        figures: &[u16],
        printed: &str,
    ) -> Result<(), String> {
        let trial = case(stream.to_vec(), Lent::both(MOST_COMMANDS));
        let outcome = by_paper(&trial);
        self.cases.library(name, &trial, &outcome);
        let counts = counts(stream, &outcome);
        self.cases.check(name, counts == figures, || {
            format!("paper: counts {counts:?}, expected {figures:?}")
        });

        let fault = paper::shelve(stream).ok().as_ref().and_then(walk::fault);
        self.cases.check(name, fault.is_none(), || {
            fault.unwrap_or_default().to_string()
        });
        self.walk(name, "paper", &walk::by_paper(stream), printed);
        if let Some(program) = self.program {
            self.walk(name, "program", &program.prints(stream)?, printed);
            self.cases.walks += 1;
        }
        Ok(())
    }

    fn walk(&mut self, name: &str, side: &str, walk: &str, expected: &str) {
        self.cases.check(name, walk == expected, || {
            format!("{side}: walk {walk:?}, expected {expected:?}")
        });
    }

    fn none_opened(&mut self, stock: u16) -> Result<(), String> {
        let opening = opening(60, stock, 6);
        let refused = [Shelve(0), Count, Shelve(61), Count, Shelve(u32::MAX)];
        for (what, commands, figures) in [
            ("no command", &[][..], &[][..]),
            ("one count", &[Count], &[0]),
            ("every master refused", &refused, &[0, 0]),
        ] {
            let name = format!("stock {stock}, {what}");
            self.walked(&name, &sent(opening, commands), figures, "0 1\n0 1\n")?;
        }
        Ok(())
    }

    /// A stock of which one, all but one and all are opened, and then another
    /// item is refused; a count after every item.
    fn shelves(&mut self, stock: u16, shelf: &str, sizes: Sizes) -> Result<(), String> {
        let walks = match stock {
            1 => vec![(1, 1)],
            2 => vec![(1, 2), (2, 2)],
            _ => vec![(1, 2), (stock - 1, stock), (stock, stock)],
        };
        for (opened, places) in walks {
            let mut commands = vec![Count];
            let mut figures = vec![0];
            for figure in 1..=opened {
                for &size in sizes(usize::from(figure) - 1) {
                    commands.extend([Shelve(size), Count]);
                    figures.push(figure);
                }
            }
            let opening = opening(60, stock, 6);
            let name = format!("stock {stock}, {opened} opened, {shelf}");
            let printed = format!("{opened} {places}\n0 1\n");
            self.walked(&name, &sent(opening, &commands), &figures, &printed)?;
            // Emptied cartridges are counted like any other.
            let mut emptied = commands.clone();
            let masters = (1..).zip(&commands).filter(|(_, sent)| **sent != Count);
            emptied.extend(masters.map(|(number, _)| Withdraw(number)));
            emptied.push(Count);
            let figures_emptied = [&figures[..], &[opened]].concat();
            let emptied = sent(opening, &emptied);
            let name_emptied = format!("{name}, and all taken out");
            self.walked(&name_emptied, &emptied, &figures_emptied, &printed)?;
            if opened == stock {
                commands.extend([Shelve(60), Count]);
                figures.push(stock);
                let name = format!("{name}, and a master refused");
                self.walked(&name, &sent(opening, &commands), &figures, &printed)?;
            }
        }
        Ok(())
    }

    /// The same masters by either opening, where the trailer decides what is
    /// opened.
    fn trailers(&mut self) -> Result<(), String> {
        let commands = [Shelve(20), Count, Shelve(20), Count, Shelve(20), Count];
        for (trailer, figures, printed) in [
            (None, [1, 1, 1], "1 2\n0 1\n"),
            (Some(0), [1, 1, 1], "1 2\n0 1\n"),
            (Some(1), [1, 1, 2], "2 3\n0 1\n"),
            (Some(20), [1, 2, 3], "3 3\n0 1\n"),
            (Some(41), [0, 0, 0], "0 1\n0 1\n"),
            (Some(u16::MAX), [0, 0, 0], "0 1\n0 1\n"),
        ] {
            let opening = Opening {
                trailer,
                ..opening(60, 3, 6)
            };
            let name = format!("the walk after a trailer of {trailer:?}");
            self.walked(&name, &sent(opening, &commands), &figures, printed)?;
        }
        Ok(())
    }

    /// A settled master opens nothing, and makes space for others.
    fn ranges(&mut self) -> Result<(), String> {
        let commands = [
            Reserve(1, 60),
            Count,
            Settle(1, 1),
            Count,
            Shelve(31),
            Count,
            Reserve(6, 5),
            Count,
            Reserve(5, 35),
            Count,
        ];
        let name = "the walk after a settling";
        let stream = sent(opening(60, 3, 6), &commands);
        self.walked(name, &stream, &[1, 1, 1, 1, 2], "2 3\n0 1\n")
    }

    /// So many opened of the second production and then of the first. The walk of
    /// either goes over the whole stock.
    fn two_productions(&mut self) -> Result<(), String> {
        for (stock, first, second, printed) in [
            (1, 0, 1, "0 1\n1 1\n"),
            (2, 1, 1, "1 2\n1 2\n"),
            (3, 1, 2, "1 2\n2 3\n"),
            (3, 0, 3, "0 1\n3 3\n"),
            (8, 3, 4, "3 4\n4 5\n"),
            (512, 200, 312, "200 201\n312 313\n"),
            (512, 511, 1, "511 512\n1 2\n"),
            (512, 0, 512, "0 1\n512 512\n"),
        ] {
            let full = |bins: u16| vec![Shelve(60); bins.into()];
            let commands = [
                vec![Switch(1)],
                full(second),
                vec![Count, Switch(0), Count],
                full(first),
                vec![Count, Switch(1), Count],
            ];
            let stream = sent(opening(60, stock, 6), &commands.concat());
            let figures = [second, 0, first, second];
            let name = format!("stock {stock}, {first} and {second} opened");
            self.walked(&name, &stream, &figures, printed)?;
        }
        Ok(())
    }

    fn longest_streams(&mut self) -> Result<(), String> {
        let name = "4,096 counts and none opened";
        let counts = sent(OPEN, &[Count; MOST_COMMANDS]);
        self.walked(name, &counts, &[0; MOST_COMMANDS], "0 1\n0 1\n")?;
        let name = "4,096 masters over a stock of 512";
        let spent = sent(OPEN, &[Shelve(60); MOST_COMMANDS]);
        self.walked(name, &spent, &[], "512 512\n0 1\n")?;
        let name = "4,096 masters in one cartridge of 512";
        let one = sent(opening(4096, 512, 9), &[Shelve(1); MOST_COMMANDS]);
        self.walked(name, &one, &[], "1 2\n0 1\n")
    }

    fn refused_streams(&mut self) -> Result<(), String> {
        let shelved = sent(OPEN, &[Shelve(60), Count]);
        let refused = [
            vec![],
            [&shelved[..], &[0x04]].concat(),
            [&shelved[..], &[0x05]].concat(),
            [&shelved[..], &[0x05, 0x02]].concat(),
            [&shelved[..], &[0x06, 0x00]].concat(),
            [&shelved[..], &[0x07, 0x00]].concat(),
            [&shelved[..], &[0x08]].concat(),
            shelved[..12].to_vec(),
            [&shelved[..], &shelved].concat(),
            [&shelved[..], &[0x11]].concat(),
            OPEN.with_trailer(5).bytes()[..9].to_vec(),
            opening(60, 513, 6).bytes(),
            sent(OPEN, &[Count; MOST_COMMANDS + 1]),
        ];
        for stream in refused {
            self.walked("no walk after a refused stream", &stream, &[], "")?;
        }
        for more in [0, 1, 2, 4096, MOST_PRINTED] {
            let mut stream = shelved.clone();
            stream.resize(MOST_PRINTED + more, 0x03);
            let name = "no walk after an overlong stream";
            self.walked(name, &stream, &[], "")?;
        }
        // One that is accepted, and too long to be printed.
        let name = "no walk after an overlong stream of ranges";
        let ranges = sent(OPEN, &[Reserve(1, 1); MOST_COMMANDS]);
        self.walked(name, &ranges, &[], "")
    }
}

/// The words of the counts in an accepted stream.
fn counts(stream: &[u8], outcome: &Outcome) -> Vec<u16> {
    let commands = Stream::read(stream).map_or(Vec::new(), |stream| stream.commands);
    let answered = commands.into_iter().zip(outcome.rows.answers());
    answered
        .filter(|(command, _)| *command == Command::Count)
        .map(|(_, &word)| word)
        .collect()
}
