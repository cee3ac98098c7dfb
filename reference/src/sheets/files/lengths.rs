//! Sheets with readings of every length that are refused, at every number: the same day is at
//! another byte in each of them.

use crate::file_bytes::followed_by_few_and_many;
use crate::numbers::faults::every_fault_at;
use crate::numbers::lengths::{numbers_by_turns, Lengths, EACH_LENGTHS};
use crate::numbers::number::LIMIT;
use crate::numbers::writing::write_numbers;
use crate::sheets::sheet::Sheet;

/// How many days there are: few, and so many that their count has two bytes.
const FEW_DAYS: usize = 6;
const MANY_DAYS: usize = 130;
/// Numbers of many days at which a sheet is refused: days on both sides and in the middle.
const PLACES_OF_MANY_DAYS: [usize; 4] = [1, 2, 65, MANY_DAYS];

/// Few days with each fault at each number, many days with each at some numbers, and both
/// followed by bytes.
pub fn refused_sheets() -> Vec<Vec<u8>> {
    let mut files = Vec::new();
    for lengths in EACH_LENGTHS {
        let few = numbers_of(lengths, FEW_DAYS);
        files.extend((0..few.len()).flat_map(|place| every_fault_at(&few, place)));
        files.extend(followed_by_few_and_many(&write_numbers(&few)));
        let many = numbers_of(lengths, MANY_DAYS);
        let places = PLACES_OF_MANY_DAYS.into_iter();
        files.extend(places.flat_map(|place| every_fault_at(&many, place)));
        files.extend(followed_by_few_and_many(&write_numbers(&many)));
    }
    files
}

/// The numbers of a sheet of so many days, whose readings have these lengths by turns.
fn numbers_of(lengths: Lengths, days: usize) -> Vec<u64> {
    let mut reading = numbers_by_turns(lengths);
    let readings = (0..days).map(|_| reading(LIMIT)).collect();
    Sheet { readings }.numbers()
}

#[cfg(test)]
mod tests {
    use super::*;
    use crate::refusal::{Reason, Refused};
    use crate::sheets::sheet::read_sheet;

    fn refused(file: &[u8]) -> Refused {
        read_sheet(file).expect_err("the sheet is refused")
    }

    /// Asserts that each fault at the place is refused at the first byte of its number.
    fn assert_refused_at(numbers: &[u64], place: usize) {
        let offset = write_numbers(&numbers[..place]).len() as u64;
        for file in every_fault_at(numbers, place) {
            let Refused { reason, .. } = refused(&file);
            assert!((1..=3).contains(&(reason as u8)));
            assert_eq!(refused(&file), reason.at(place).with_offset(offset));
        }
    }

    #[test]
    fn faults_are_refused_at_the_first_byte_of_their_number() {
        for lengths in EACH_LENGTHS {
            let few = numbers_of(lengths, FEW_DAYS);
            for place in 0..few.len() {
                assert_refused_at(&few, place);
            }
            let many = numbers_of(lengths, MANY_DAYS);
            for place in PLACES_OF_MANY_DAYS {
                assert_refused_at(&many, place);
            }
        }
    }

    #[test]
    fn what_comes_after_is_refused_at_its_first_byte() {
        for lengths in EACH_LENGTHS {
            for days in [FEW_DAYS, MANY_DAYS] {
                let whole = write_numbers(&numbers_of(lengths, days));
                let offset = whole.len() as u64;
                let expected = Reason::BytesAfter.at(days + 1).with_offset(offset);
                for file in followed_by_few_and_many(&whole) {
                    assert_eq!(refused(&file), expected);
                }
            }
        }
    }

    #[test]
    fn days_are_at_other_bytes_than_places() {
        let bytes = |days| write_numbers(&numbers_of(&[1, 2, 3, 4, 5], days)).len();
        assert_eq!(bytes(FEW_DAYS), 1 + 15 + 1);
        assert_eq!(bytes(MANY_DAYS), 2 + 26 * 15);
    }
}
