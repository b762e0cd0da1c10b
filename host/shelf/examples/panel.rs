//! A panel's round: know how far a search can go, open a shelf for masters with
//! trailers, shelve those of two productions, take a master out again, keep a place
//! for one that is not finished and settle its size, read the answers, print the
//! vault sheet, check plans, repack what remains, put pictures and sounds together.

use shelf::Production::{First, Second};
use shelf::{Answer, Command, Entry, Items, Opening, Production, StreamBuilder, Totals};

const CAPACITY: u32 = 60;
const STOCK: u16 = 6;
const TRAILER: u16 = 1;

fn main() {
    let most = shelf::most_looks(STOCK);
    println!("no search takes more than {most} looks");
    let mut stream = StreamBuilder::open_with_trailer(CAPACITY, STOCK, 6, TRAILER);
    for size in [34, 21, 21, 21, 21, 21, 21] {
        stream.shelve(size);
    }
    stream.switch(Second).shelve(34).shelve(19).shelve(29);
    stream.shelve(60).count().withdraw(3);
    stream.switch(First).withdraw(3).count();
    stream.reserve(18, 22).settle(18, 23).settle(18, 19);

    let (mut words, mut free) = stream.rows();
    let totals = match shelf::shelve(stream.bytes(), &mut words, &mut free) {
        Ok(totals) => totals,
        Err(refusal) => {
            eprintln!("{refusal}");
            std::process::exit(1);
        }
    };

    for (command, answer) in shelf::answers(stream.bytes(), &words, &free) {
        match command {
            Command::Shelve { size } => print!("master of {size}: "),
            Command::Reserve { least, greatest } => print!("master of {least} to {greatest}: "),
            Command::Withdraw { number } => print!("withdrawal of {number}: "),
            Command::Settle { number, size } => print!("settling of {number} at {size}: "),
            Command::Count | Command::Switch(_) => {}
        }
        match answer {
            Answer::Placed { bin, free }
            | Answer::Withdrawn { bin, free }
            | Answer::Settled { bin, free } => println!("cartridge {bin}, {free} free"),
            Answer::Refused(why) => println!("refused {}, {why}", why.number()),
            Answer::Counted { opened } => println!("{opened} cartridges opened"),
            Answer::Switched(next) => println!("production {}", next.number()),
        }
    }
    let Totals {
        items,
        opened,
        looks,
    } = totals;
    println!("{items} masters in {opened} cartridges, the longest search {looks} looks");
    print!("{}", shelf::sheet(stream.bytes()).text());

    // The masters still shelved, in their stored sizes, and where they lie are a plan
    // of their own in each production.
    let opening = Opening::read(stream.bytes()).expect("it was accepted");
    let items = Items::after(stream.bytes(), &words, &free);
    let mut plans = Production::BOTH.map(|production| items.plan(&opening, production));
    for (number, plan) in plans.iter().enumerate() {
        report(&format!("production {number}'s own plan"), plan);
    }

    // Moving the first 21 beside the 34 and another 21 overfills cartridge 1.
    plans[0][1].bin = 1;
    report("a crowded plan", &plans[0]);

    for production in Production::BOTH {
        let sizes = items.stored_sizes(&opening, production);
        repack(production, &sizes, items.opened(production).into());
    }

    pair(&[40, 20, 50, 20], &[30, 15, 40]);
}

/// Says where the masters of a production go at the season's end.
fn repack(production: Production, sizes: &[u32], old: u32) {
    let mut fresh = vec![0; sizes.len()];
    let repacked = match shelf::repack(sizes, &mut fresh, CAPACITY, old) {
        Ok(repacked) => repacked,
        Err(refusal) => return println!("{refusal}"),
    };
    print!("production {} repacked:", production.number());
    for (size, bin) in sizes.iter().zip(&fresh) {
        print!(" {size} on {bin},");
    }
    let count = repacked.count;
    match repacked.saves_nothing {
        true => println!(" {old} cartridges before, {count} after: the move saves nothing"),
        false => println!(" {old} cartridges before, {count} after"),
    }
}

/// Says which picture and which sound go onto one cartridge, by their stored sizes.
fn pair(pictures: &[u32], sounds: &[u32]) {
    let mut sound_of = vec![0; pictures.len()];
    let pairs = match shelf::pair(pictures, sounds, &mut sound_of, CAPACITY) {
        Ok(pairs) => pairs,
        Err(refusal) => return println!("{refusal}"),
    };
    print!("paired:");
    for (picture, &place) in pictures.iter().zip(&sound_of) {
        match place {
            0 => print!(" {picture} alone,"),
            _ => print!(" {picture} with {},", sounds[usize::from(place) - 1]),
        }
    }
    println!(" {pairs} pairs");
}

/// Checks a plan of just these masters, in cartridges up to the highest.
fn report(name: &str, plan: &[Entry]) {
    let items: Vec<u32> = plan.iter().map(|entry| entry.size).collect();
    let k = plan.iter().map(|entry| entry.bin).max().unwrap_or(0);
    match shelf::check_plan(plan, &items, CAPACITY, k) {
        Ok(()) => println!("{name}: passed"),
        Err(refusal) => println!("{name}: {refusal}"),
    }
}
