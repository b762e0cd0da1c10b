//! What a call returns: one number of 64 bits, read by the rules of shelf.h.

use crate::{PlanFault, PlanRefusal, Repacked, RowFault, RowRefusal};
use crate::{StreamFault, StreamRefusal, Totals};

/// Set in the number of whatever is refused, clear in every other.
const REFUSED: u64 = 1 << 63;

/// A refusal's number, and its offset or place; `None` if nothing is refused.
fn refusal(code: u64) -> Option<(u32, usize)> {
    let number = ((code ^ REFUSED) >> 32) as u32;
    (code & REFUSED != 0).then_some((number, code as u32 as usize))
}

/// What `shelf_stream` returned. `None` if the interface excludes the number.
pub fn of_stream(code: u64) -> Option<Result<Totals, StreamRefusal>> {
    if let Some((number, offset)) = refusal(code) {
        let fault = StreamFault::from_number(number)?;
        return Some(Err(StreamRefusal { fault, offset }));
    }
    Some(Ok(Totals {
        items: (code >> 16) as u16,
        opened: code as u16,
        looks: u8::try_from(code >> 32).ok()?,
    }))
}

/// What `shelf_check_plan` returned: a plan passes with 0 and no other number.
/// `None` if the interface excludes the number.
pub fn of_plan(code: u64) -> Option<Result<(), PlanRefusal>> {
    if let Some((number, place)) = refusal(code) {
        let fault = PlanFault::from_number(number)?;
        return Some(Err(PlanRefusal { fault, place }));
    }
    (code == 0).then_some(Ok(()))
}

/// Set in the number of a row that is repacked and saves nothing.
const SAVES_NOTHING: u64 = 1 << 32;

/// What `shelf_repack` returned. `None` if the interface excludes the number.
pub fn of_repack(code: u64) -> Option<Result<Repacked, RowRefusal>> {
    of_row(code, |code| {
        Some(Repacked {
            count: u16::try_from(code & !SAVES_NOTHING).ok()?,
            saves_nothing: code & SAVES_NOTHING != 0,
        })
    })
}

/// What `shelf_pair` returned. `None` if the interface excludes the number.
pub fn of_pair(code: u64) -> Option<Result<u16, RowRefusal>> {
    of_row(code, |code| u16::try_from(code).ok())
}

/// What a call over a row of sizes returned, the number of an accepted one read so.
fn of_row<T>(code: u64, accepted: impl FnOnce(u64) -> Option<T>) -> Option<Result<T, RowRefusal>> {
    if let Some((number, place)) = refusal(code) {
        let fault = RowFault::from_number(number)?;
        return Some(Err(RowRefusal { fault, place }));
    }
    accepted(code).map(Ok)
}

#[cfg(test)]
mod tests {
    use super::*;

    #[test]
    fn bit_63_tells_acceptance() {
        let totals = |items, opened, looks| {
            Some(Ok(Totals {
                items,
                opened,
                looks,
            }))
        };
        assert_eq!(of_stream(0), totals(0, 0, 0));
        let largest = 10 << 32 | 4096 << 16 | 512;
        assert_eq!(of_stream(largest), totals(4096, 512, 10));
        assert_eq!(of_stream(0xFFFF_FFFF), totals(0xFFFF, 0xFFFF, 0));
        assert_eq!(of_stream(0xFF << 32), totals(0, 0, 0xFF));
        let fault = StreamFault::TooFewWords;
        let offset = 0xFFFF_FFFF;
        let refused = Some(Err(StreamRefusal { fault, offset }));
        assert_eq!(of_stream(REFUSED | 7 << 32 | 0xFFFF_FFFF), refused);
    }

    #[test]
    fn zero_alone_passes() {
        assert_eq!(of_plan(0), Some(Ok(())));
        let fault = PlanFault::OtherItems;
        let refused = Some(Err(PlanRefusal { fault, place: 1 }));
        assert_eq!(of_plan(REFUSED | 16 << 32 | 1), refused);
    }

    #[test]
    fn bit_32_tells_what_saves_nothing() {
        for (code, count, saves_nothing) in [
            (0, 0, false),
            (4096, 4096, false),
            (1 << 32, 0, true),
            (1 << 32 | 4096, 4096, true),
        ] {
            let repacked = Repacked {
                count,
                saves_nothing,
            };
            assert_eq!(of_repack(code), Some(Ok(repacked)));
        }
        let fault = RowFault::SizeOutsideLimits;
        let refused = Some(Err(RowRefusal { fault, place: 4096 }));
        assert_eq!(of_repack(REFUSED | 13 << 32 | 4096), refused);
    }

    #[test]
    fn pairs_are_a_plain_number() {
        for pairs in [0, 1, 4096] {
            assert_eq!(of_pair(pairs.into()), Some(Ok(pairs)));
        }
        let (fault, place) = (RowFault::SizeOutsideLimits, 8192);
        let refused = Some(Err(RowRefusal { fault, place }));
        assert_eq!(of_pair(REFUSED | 13 << 32 | 8192), refused);
        let (fault, place) = (RowFault::TooFewWords, 0);
        let refused = Some(Err(RowRefusal { fault, place }));
        assert_eq!(of_pair(REFUSED | 22 << 32), refused);
    }

    #[test]
    fn excluded_numbers_are_no_result() {
        for code in [1 << 40, 0x101 << 32, REFUSED >> 1, REFUSED - 1, REFUSED] {
            assert_eq!(of_stream(code), None);
        }
        for number in [8, 17, 19, 20, 21, 22] {
            assert_eq!(of_stream(REFUSED | number << 32), None);
        }
        for code in [1, 11 << 32] {
            assert_eq!(of_plan(code), None);
        }
        for number in [10, 17, 18, 19, 22] {
            assert_eq!(of_plan(REFUSED | number << 32), None);
        }
        for code in [1 << 16, 1 << 33, 3 << 32, REFUSED - 1, REFUSED] {
            assert_eq!(of_repack(code), None);
        }
        for code in [1 << 16, 1 << 32, 1 << 32 | 1, REFUSED - 1, REFUSED] {
            assert_eq!(of_pair(code), None);
        }
        for number in [7, 10, 14, 15, 16, 17, 21, 23] {
            assert_eq!(of_repack(REFUSED | number << 32), None);
            assert_eq!(of_pair(REFUSED | number << 32), None);
        }
    }
}
