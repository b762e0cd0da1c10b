//! The vault sheet in plain Rust, written from the request's text alone and
//! sharing nothing with the library or its wrapper: lines put together from the
//! bins of [`paper`](crate::paper).

use crate::paper::{Bin, Packing, Shelved};
use crate::wire::{has_sheet, Refusal, MOST_PRINTED, MOST_STOCK};

const LINE: usize = 40;
const LINES_A_PAGE: usize = 50;
/// The longest sheet: every bin of the largest stock, and the pages it takes,
/// one more where the second production has to start a new one.
pub const MOST_BYTES: usize = {
    let bins = MOST_STOCK as usize;
    (LINE + 1) * (bins + bins.div_ceil(LINES_A_PAGE) + 1)
};

/// What is printed of a stream: its sheet, or the line of one that is refused.
pub fn sheet(stream: &[u8], shelved: &Result<Shelved, Refusal>) -> String {
    if !has_sheet(stream) {
        return format!("L {MOST_PRINTED}\n");
    }
    match shelved {
        Err(Refusal { number, at }) => format!("X {number} {at}\n"),
        Ok(shelved) => pages(&shelved.packing),
    }
}

fn pages(packing: &Packing) -> String {
    let mut sheet = String::new();
    let mut page = 0;
    for production in &packing.productions {
        let numbered: Vec<(usize, &Bin)> = (1..).zip(&production.bins).collect();
        for bins in numbered.chunks(LINES_A_PAGE) {
            page += 1;
            sheet += &line(&format!("PAGE {page:>3}"));
            for (number, bin) in bins {
                sheet += &line(&cartridge(*number, bin, packing));
            }
        }
    }
    sheet
}

fn cartridge(number: usize, bin: &Bin, packing: &Packing) -> String {
    let (class, load, held) = (bin.class, bin.load(), bin.items.len());
    let free = packing.free_units(bin);
    format!("{number:>4} {class} {load:>8} {free:>8} {held:>4}")
}

/// Spaces fill the line up.
fn line(text: &str) -> String {
    format!("{text:<LINE$}\n")
}
