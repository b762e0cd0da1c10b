//! The vault sheet's cases by name, their texts written out from the request.

use crate::cases::{case, sample, sent, BinLine, Cases};
use crate::compare::{by_library, by_paper};
use crate::rows::Lent;
use crate::wire::Command::{Count, Shelve};
use crate::wire::{opening, Opening, Stream, MOST_CAPACITY, MOST_PRINTED, PRODUCTIONS};
use crate::written::{difference, Written};

const OPEN: Opening = opening(60, 512, 6);

impl Cases {
    /// A stream whose sheet is this text on both sides, to the last lent byte
    /// and around them.
    pub fn sheet(&mut self, name: &str, stream: Vec<u8>, text: &str) {
        let trial = case(stream, Lent::both(0));
        let expected = Written::text(trial.fill, text);
        for (side, outcome) in [("paper", by_paper(&trial)), ("library", by_library(&trial))] {
            self.check(name, outcome.sheet == expected, || {
                let seen = difference(&expected, &outcome.sheet);
                format!("sheet, expected against {side}: {seen}")
            });
        }
    }
}

/// The text of a sheet with these bins, all of one production.
pub fn sheet(capacity: u32, bins: &[BinLine]) -> String {
    sheets(capacity, [bins, &[]])
}

/// The text of a sheet with these bins of either production. The pages of the
/// second are numbered on from those of the first.
pub fn sheets(capacity: u32, productions: [&[BinLine]; PRODUCTIONS]) -> String {
    let mut text = String::new();
    let mut page = 0;
    for bins in productions {
        for (place, (class, load, held)) in bins.iter().enumerate() {
            if place % 50 == 0 {
                page += 1;
                text += &format!("PAGE {page:>3}{:32}\n", "");
            }
            let (number, free) = (place + 1, capacity - load);
            text += &format!(
                "{number:>4} {class} {load:>8} {free:>8} {held:>4}{:11}\n",
                ""
            );
        }
    }
    text
}

pub fn run(cases: &mut Cases) {
    shelves(cases);
    pages(cases);
    widest_numbers(cases);
    refused_streams(cases);
}

fn shelves(cases: &mut Cases) {
    let lines = [
        "PAGE   1                                \n",
        "   1 1       57        3    2           \n",
        "   2 3       44       16    2           \n",
        "   3 3       44       16    2           \n",
        "   4 3       44       16    2           \n",
    ];
    cases.sheet("the sheet of the sample", sample(), &lines.concat());

    // Six of 22: the sixth lies alone in class 1.
    let stream = Stream::of_sizes(OPEN, &[20, 30, 22, 22, 22, 22, 22, 22, 38, 31]);
    let lines = [
        "PAGE   1                                \n",
        "   1 4       20       40    1           \n",
        "   2 2       30       30    1           \n",
        "   3 3       44       16    2           \n",
        "   4 3       44       16    2           \n",
        "   5 3       22       38    1           \n",
        "   6 1       60        0    2           \n",
        "   7 1       31       29    1           \n",
    ];
    cases.sheet("each class on a sheet", stream.bytes(), &lines.concat());
}

/// So many cartridges, each full with one master.
fn full(opened: u32) -> String {
    let mut text = String::new();
    for number in 1..=opened {
        if let Some(page) = [1, 51, 101, 151, 201, 251, 301, 351, 401, 451, 501]
            .iter()
            .position(|&first| first == number)
        {
            text += &format!("PAGE {:>3}                                \n", page + 1);
        }
        text += &format!("{number:>4} 1       60        0    1           \n");
    }
    text
}

fn pages(cases: &mut Cases) {
    let none = [&[][..], &[Count, Shelve(0), Shelve(61)]];
    for commands in none {
        let name = "a sheet with none opened has no page";
        cases.sheet(name, sent(OPEN, commands), "");
    }
    for opened in [1, 49, 50, 51, 99, 100, 101, 500, 501, 511, 512] {
        let name = format!("a sheet with {opened} opened");
        let stream = Stream::of_sizes(OPEN, &vec![60; opened as usize]);
        cases.sheet(&name, stream.bytes(), &full(opened));
    }
    let spent = Stream::of_sizes(OPEN, &[60; 4096]);
    let name = "a sheet with the stock spent";
    cases.sheet(name, spent.bytes(), &full(512));
}

fn widest_numbers(cases: &mut Cases) {
    let open = opening(MOST_CAPACITY, 512, 9);
    let mut sizes = vec![MOST_CAPACITY];
    sizes.extend([1; 4095]);
    let lines = [
        "PAGE   1                                \n",
        "   1 1 16777216        0    1           \n",
        "   2 4     4095 16773121 4095           \n",
    ];
    let stream = Stream::of_sizes(open, &sizes);
    let name = "the widest numbers of a sheet";
    cases.sheet(name, stream.bytes(), &lines.concat());

    let stream = Stream::of_sizes(open, &[4096; 4096]);
    let lines = [
        "PAGE   1                                \n",
        "   1 4 16777216        0 4096           \n",
    ];
    let name = "4,096 masters on one line of a sheet";
    cases.sheet(name, stream.bytes(), &lines.concat());
}

fn refused_streams(cases: &mut Cases) {
    let shelved = sent(OPEN, &[Shelve(60), Count]);
    let trailed = sent(OPEN.with_trailer(5), &[Shelve(55), Count]);
    let refused = [
        (vec![], "X 1 0\n"),
        ([&shelved[..], &[0x08]].concat(), "X 2 14\n"),
        ([&shelved[..], &[0x05]].concat(), "X 3 14\n"),
        ([&shelved[..], &[0x05, 0x02]].concat(), "X 18 14\n"),
        ([&shelved[..], &[0x04, 0x00]].concat(), "X 3 14\n"),
        ([&shelved[..], &[0x06], &[0; 7]].concat(), "X 3 14\n"),
        ([&shelved[..], &[0x07], &[0; 5]].concat(), "X 3 14\n"),
        (shelved[..12].to_vec(), "X 3 8\n"),
        ([&shelved[..], &shelved].concat(), "X 4 14\n"),
        ([&shelved[..], &[0x11]].concat(), "X 4 14\n"),
        ([&trailed[..], &OPEN.bytes()].concat(), "X 4 16\n"),
        (trailed[..14].to_vec(), "X 3 10\n"),
        (trailed[..9].to_vec(), "X 3 0\n"),
        (opening(60, 513, 6).bytes(), "X 5 0\n"),
        (opening(60, 513, 6).with_trailer(0).bytes(), "X 5 0\n"),
        (sent(OPEN, &[Count; 4097]), "X 6 4104\n"),
        (sent(OPEN, &[Shelve(60); 4097]), "X 6 20488\n"),
    ];
    for (stream, text) in refused {
        cases.sheet("a refused stream has no sheet", stream, text);
    }

    let mut stream = sent(OPEN, &[Count; 4096]);
    stream.resize(MOST_PRINTED, 0);
    let name = "as many bytes as have a sheet";
    cases.sheet(name, stream.clone(), "X 6 4104\n");
    for more in [1, 2, 4096, MOST_PRINTED] {
        stream.resize(MOST_PRINTED + more, 0);
        let name = "too many bytes for a sheet";
        cases.sheet(name, stream.clone(), "L 32768\n");
    }
}
