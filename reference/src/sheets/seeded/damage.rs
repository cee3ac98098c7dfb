//! Seeded damage to the file of a sheet.

use crate::file_bytes::{cut_short, with_bytes_after, with_hits};
use crate::numbers::faults::{not_shortest, outside, too_large};
use crate::numbers::writing::{with_values, write_numbers, write_with_form};
use crate::seeded::Seeded;
use crate::sheets::sheet::Sheet;

/// What is done to a file.
#[derive(Clone, Copy, Debug)]
pub enum Damage {
    /// The file ends early.
    CutShort,
    /// A number gets a zero group at its end.
    NotShortest,
    /// A number gets too many groups or too large a value.
    TooLarge,
    /// The count gets a value it may not have, whatever comes after it.
    CountOutside,
    /// The count is one more or one less than the days.
    Miscounted,
    /// Bytes come after the last reading.
    BytesAfter,
    /// One byte or two are hit; the sheet may stay whole.
    Hits,
}

impl Damage {
    /// All kinds of damage.
    pub const EACH: [Damage; 7] = [
        Damage::CutShort,
        Damage::NotShortest,
        Damage::TooLarge,
        Damage::CountOutside,
        Damage::Miscounted,
        Damage::BytesAfter,
        Damage::Hits,
    ];
}

/// The place of the count among the numbers.
const COUNT_AT: usize = 0;
/// How many bytes are hit at most: no sheet has fewer.
const MOST_HITS: usize = 2;

/// The bytes of the sheet with the damage done.
pub fn damaged(sheet: &Sheet, damage: Damage, seeded: &mut Seeded) -> Vec<u8> {
    let numbers = sheet.numbers();
    let any_place = seeded.up_to(numbers.len() - 1);
    let whole = write_numbers(&numbers);
    match damage {
        Damage::CutShort => cut_short(whole, seeded),
        Damage::NotShortest => write_with_form(&numbers, any_place, &not_shortest(seeded)),
        Damage::TooLarge => write_with_form(&numbers, any_place, &too_large(seeded)),
        Damage::CountOutside => count_outside(sheet, seeded),
        Damage::Miscounted => {
            let days = numbers[COUNT_AT];
            let count = seeded.pick(&[days - 1, days + 1]);
            write_numbers(&with_values(&numbers, &[(COUNT_AT, count)]))
        }
        Damage::BytesAfter => with_bytes_after(whole, seeded),
        Damage::Hits => {
            let hits = 1 + seeded.up_to(MOST_HITS - 1);
            with_hits(whole, hits, seeded)
        }
    }
}

/// A count that is not allowed, followed by the readings, by nothing, or by a number at fault.
fn count_outside(sheet: &Sheet, seeded: &mut Seeded) -> Vec<u8> {
    let count = write_numbers(&[outside(&Sheet::DAYS, seeded)]);
    let readings = write_numbers(&sheet.readings);
    let at_fault = not_shortest(seeded);
    let after = seeded.pick(&[&readings[..], &[], &at_fault]);
    [&count[..], after].concat()
}
