//! The looks' cases by name, written out from the request: those of every command,
//! and so the largest, which the stream returns.

use crate::cases::{case, sample, sent, Cases};
use crate::compare::by_paper_of;
use crate::looks;
use crate::paper;
use crate::rows::Lent;
use crate::wire::Command::{self, Count, Reserve, Settle, Shelve, Switch, Withdraw};
use crate::wire::{opening, Opening, Stream, MOST_COMMANDS};

/// A command and its looks, 0 where it makes no search.
type Looked = (Command, usize);

/// Stocks, and the looks of a master that fits on one of the cartridges.
const STOCKS: [(u16, usize); 25] = [
    (1, 1),
    (2, 2),
    (3, 3),
    (4, 3),
    (5, 4),
    (7, 4),
    (8, 4),
    (9, 5),
    (15, 5),
    (16, 5),
    (17, 6),
    (31, 6),
    (32, 6),
    (33, 7),
    (63, 7),
    (64, 7),
    (65, 8),
    (127, 8),
    (128, 8),
    (129, 9),
    (255, 9),
    (256, 9),
    (257, 10),
    (511, 10),
    (512, 10),
];

impl Cases {
    /// A stream whose commands take these looks.
    fn looked(&mut self, name: &str, opening: Opening, looked: &[Looked]) {
        let (commands, expected): (Vec<Command>, Vec<usize>) = looked.iter().copied().unzip();
        let trial = case(sent(opening, &commands), Lent::both(commands.len()));
        let shelved = paper::shelve(&trial.stream);
        let paper = by_paper_of(&trial, &shelved);
        let most = expected.iter().max().copied().unwrap_or(0);
        let returned = paper.totals().map(|totals| totals.looks);
        self.check(name, returned == Some(most), || {
            format!("paper: {paper}; expected {most} looks")
        });
        self.library(name, &trial, &paper);

        let shelved = shelved.expect("a stream without a fault");
        let mut taken = vec![0; commands.len()];
        for searched in &shelved.packing.searches {
            taken[searched.number - 1] += searched.search.looks;
        }
        self.check(name, taken == expected, || {
            format!("paper: looks {taken:?}, expected {expected:?}")
        });
        let fault = looks::fault_of_paper(&shelved);
        self.check(name, fault.is_none(), || {
            fault.unwrap_or_default().to_string()
        });
    }
}

pub fn run(cases: &mut Cases) {
    let Stream { opening, commands } = Stream::read(&sample()).expect("the paper's stream");
    let looks = [1, 1, 3, 1, 3, 1, 3, 1, 0, 3];
    let looked: Vec<Looked> = commands.into_iter().zip(looks).collect();
    cases.looked("the looks of the sample", opening, &looked);
    for (stock, most) in STOCKS {
        few_masters(cases, stock, most);
        two_productions(cases, stock, most);
        spent(cases, stock, most);
    }
    beside_an_a(cases);
    longest_streams(cases);
}

/// One cartridge at the most has space for a master.
fn few_masters(cases: &mut Cases, stock: u16, most: usize) {
    let looked: [(&str, &[Looked]); 16] = [
        ("no command", &[]),
        (
            "no master",
            &[(Count, 0), (Withdraw(1), 0), (Switch(1), 0), (Count, 0)],
        ),
        (
            "every master refused with 8 or 9",
            &[(Shelve(0), 0), (Shelve(61), 0), (Shelve(u32::MAX), 0)],
        ),
        ("one master", &[(Shelve(35), 1)]),
        (
            "one between some refused with 8 and 9",
            &[(Shelve(61), 0), (Shelve(35), 1), (Shelve(0), 0)],
        ),
        ("a second that fits", &[(Shelve(30), 1), (Shelve(30), most)]),
        // Over a stock of 1 these are refused with 10.
        (
            "a second that does not fit",
            &[(Shelve(60), 1), (Shelve(60), 1)],
        ),
        (
            "a second of another class",
            &[(Shelve(20), 1), (Shelve(30), 1)],
        ),
        (
            "the most is not the last",
            &[
                (Shelve(30), 1),
                (Shelve(30), most),
                (Shelve(60), 1),
                (Count, 0),
                (Shelve(60), 1),
                (Shelve(61), 0),
            ],
        ),
        (
            "the most is no sum",
            &[
                (Shelve(1), 1),
                (Shelve(2), most),
                (Shelve(3), most),
                (Shelve(4), most),
                (Shelve(5), most),
            ],
        ),
        (
            "an emptied cartridge is filled again",
            &[
                (Shelve(60), 1),
                (Withdraw(1), 0),
                (Withdraw(1), 0),
                (Count, 0),
                (Shelve(35), most),
                (Withdraw(5), 0),
                (Shelve(60), most),
            ],
        ),
        (
            "an emptied cartridge of another class",
            &[(Shelve(60), 1), (Withdraw(1), 0), (Shelve(30), 1)],
        ),
        (
            "every range refused with 19 or 9",
            &[
                (Reserve(0, 5), 0),
                (Reserve(6, 5), 0),
                (Reserve(1, 61), 0),
                (Settle(1, 5), 0),
            ],
        ),
        (
            "a range and its settlings",
            &[
                (Reserve(1, 35), 1),
                (Settle(1, 36), 0),
                (Settle(1, 5), 0),
                (Settle(1, 5), 0),
            ],
        ),
        (
            "a second with a range that fits",
            &[(Reserve(30, 30), 1), (Reserve(1, 30), most)],
        ),
        (
            "an A beside one that is settled",
            &[(Reserve(1, 60), 1), (Settle(1, 1), 0), (Shelve(59), most)],
        ),
    ];
    let open = opening(60, stock, 6);
    for (what, looked) in looked {
        cases.looked(&format!("stock {stock}, looks: {what}"), open, looked);
    }
    let trailed = [
        (Shelve(0), 0),
        (Shelve(56), 0),
        (Shelve(25), 1),
        (Shelve(25), most),
        (Shelve(55), 1),
    ];
    let name = format!("stock {stock}, looks with a trailer");
    cases.looked(&name, open.with_trailer(5), &trailed);
}

/// The looks go by the whole stock, whoever has opened it.
fn two_productions(cases: &mut Cases, stock: u16, most: usize) {
    let open = opening(60, stock, 6);
    let second = [
        (Switch(1), 0),
        (Shelve(20), 1),
        (Shelve(20), most),
        (Switch(0), 0),
    ];
    let name = format!("stock {stock}, looks in production 1 alone");
    cases.looked(&name, open, &second);
    let first = [
        (Shelve(20), 1),
        (Shelve(20), most),
        (Switch(1), 0),
        (Shelve(60), 1),
        (Shelve(61), 0),
    ];
    let name = format!("stock {stock}, the most looks in production 0");
    cases.looked(&name, open, &first);
    let others = [(Shelve(20), 1), (Switch(1), 0), (Shelve(20), 1)];
    let name = format!("stock {stock}, looks at the other's space");
    cases.looked(&name, open, &others);

    // The other production has opened all but one.
    for (own, other) in [(0, 1), (1, 0)] {
        let mut looked = vec![(Switch(other), 0)];
        looked.extend(vec![(Shelve(60), 1); usize::from(stock) - 1]);
        looked.extend([(Switch(own), 0), (Shelve(20), 1)]);
        looked.extend([(Shelve(20), most); 2]);
        // It is full now, and the stock is spent.
        looked.extend([(Shelve(20), 1), (Switch(other), 0), (Shelve(20), 1)]);
        let name = format!("stock {stock}, one left for production {own}");
        cases.looked(&name, open, &looked);
    }
}

/// The whole stock full, and then one cartridge after another emptied and filled
/// again.
fn spent(cases: &mut Cases, stock: u16, most: usize) {
    let mut looked = vec![(Shelve(60), 1); stock.into()];
    looked.extend([(Shelve(60), 1), (Shelve(20), 1), (Shelve(0), 0)]);
    looked.extend([(Switch(1), 0), (Shelve(60), 1), (Switch(0), 0)]);
    let open = opening(60, stock, 6);
    let name = format!("stock {stock}, looks where the stock is spent");
    cases.looked(&name, open, &looked);

    let mut numbers: Vec<u16> = (1..=stock).collect();
    for bin in [1, stock / 2 + 1, stock] {
        let number = &mut numbers[usize::from(bin) - 1];
        looked.extend([(Withdraw(*number), 0), (Shelve(60), most)]);
        *number = looked.len() as u16;
        // All are full again.
        looked.push((Shelve(60), 1));
    }
    let name = format!("stock {stock}, looks for the one that is emptied");
    cases.looked(&name, open, &looked);
}

/// The m-th B2 are searched for in a tree of their own.
fn beside_an_a(cases: &mut Cases) {
    let b2 = |looks: [usize; 6]| looks.map(|looks| (Shelve(22), looks)).to_vec();
    let open = |stock: u16| opening(60, stock, 6);

    let mut looked = vec![(Shelve(35), 1)];
    looked.extend(b2([1, 4, 1, 4, 1, 4]));
    cases.looked("looks of a sixth B2 beside an A", open(5), &looked);

    // The A that come later find the B2 that wait for them, and the twelfth B2
    // finds no space beside the first of these.
    let mut looked = b2([1, 5, 1, 5, 1, 1]);
    looked.push((Shelve(38), 5));
    looked.extend(b2([5, 1, 5, 1, 5, 1]));
    looked.extend([(Shelve(31), 5), (Shelve(31), 1)]);
    cases.looked("looks of a sixth B2 without an A", open(9), &looked);

    // Refused with 10 it is the sixth again.
    let mut looked = b2([1, 3, 1, 3, 1, 1]);
    looked.extend([(Shelve(22), 1), (Count, 0), (Shelve(24), 1)]);
    cases.looked("looks of a sixth B2 that is refused", open(3), &looked);
}

fn longest_streams(cases: &mut Cases) {
    let mut looked = [(Shelve(1), 10); MOST_COMMANDS];
    looked[0].1 = 1;
    let name = "looks of 4,096 masters in one cartridge of 512";
    cases.looked(name, opening(4096, 512, 9), &looked);
    let name = "looks of 4,096 masters over a stock of 512";
    let full = [(Shelve(60), 1); MOST_COMMANDS];
    cases.looked(name, opening(60, 512, 6), &full);
    let name = "no looks in 4,096 counts";
    let counts = [(Count, 0); MOST_COMMANDS];
    cases.looked(name, opening(60, 512, 6), &counts);
}
