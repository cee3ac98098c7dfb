//! Periods with numbers of every length that reading refuses, at every number: refusals 1 to 9.

use super::period_of;
use crate::file_bytes::followed_by_few_and_many;
use crate::numbers::faults::every_fault_at;
use crate::numbers::lengths::EACH_LENGTHS;
use crate::numbers::number::LIMIT;
use crate::numbers::writing::{with_values, write_numbers};
use crate::periods::fields::fields_of;
use crate::periods::records::{ANY_NUMBER, HEADER_NUMBERS};

/// How many lines there are: few, and so many that their count has two bytes.
const FEW_LINES: usize = 5;
const MANY_LINES: usize = 128;

/// Few lines with each refusal at each number, many lines with each at some numbers, and both
/// followed by bytes.
pub fn refused_by_reading() -> Vec<Vec<u8>> {
    let mut files = Vec::new();
    for lengths in EACH_LENGTHS {
        let few = period_of(lengths, FEW_LINES).numbers();
        files.extend((0..few.len()).flat_map(|place| refused_at(&few, place)));
        files.extend(followed_by_few_and_many(&write_numbers(&few)));
        let many = period_of(lengths, MANY_LINES).numbers();
        let places = places_in(&many).into_iter();
        files.extend(places.flat_map(|place| refused_at(&many, place)));
        files.extend(followed_by_few_and_many(&write_numbers(&many)));
    }
    files
}

/// The places of the first two numbers behind the header, of one in the middle and of the last.
fn places_in(numbers: &[u64]) -> [usize; 4] {
    let (middle, last) = (numbers.len() / 2, numbers.len() - 1);
    [HEADER_NUMBERS, HEADER_NUMBERS + 1, middle, last]
}

/// Each refusal of the number at this place.
fn refused_at(numbers: &[u64], place: usize) -> Vec<Vec<u8>> {
    let mut files = every_fault_at(numbers, place);
    files.extend(outside_its_field(numbers, place));
    files
}

/// The number at the place is outside what its field may be, by one on each side and as far as can
/// be; there is no such file if the field may be any number.
fn outside_its_field(numbers: &[u64], place: usize) -> Vec<Vec<u8>> {
    let allowed = &fields_of(numbers)[place].allowed;
    if *allowed == ANY_NUMBER {
        return Vec::new();
    }
    let below = allowed.start().checked_sub(1);
    let outside = below.into_iter().chain([allowed.end() + 1, LIMIT]);
    outside
        .map(|value| write_numbers(&with_values(numbers, &[(place, value)])))
        .collect()
}

#[cfg(test)]
mod tests {
    use super::*;
    use crate::numbers::lengths::Lengths;
    use crate::periods::reading::read_period;
    use crate::refusal::{Reason, Refused};

    fn refused(file: &[u8]) -> Refused {
        read_period(file).expect_err("the file is refused")
    }

    /// The numbers of few lines and of many, with places of theirs.
    fn numbers_and_places(lengths: Lengths) -> [(Vec<u64>, Vec<usize>); 2] {
        let few = period_of(lengths, FEW_LINES).numbers();
        let many = period_of(lengths, MANY_LINES).numbers();
        let all = (0..few.len()).collect();
        let some = places_in(&many).to_vec();
        [(few, all), (many, some)]
    }

    #[test]
    fn faults_and_fields_are_refused_at_the_first_byte_of_their_number() {
        for (numbers, places) in EACH_LENGTHS.into_iter().flat_map(numbers_and_places) {
            for place in places {
                let offset = write_numbers(&numbers[..place]).len() as u64;
                for file in every_fault_at(&numbers, place) {
                    let Refused { reason, .. } = refused(&file);
                    assert!((1..=3).contains(&(reason as u8)));
                    assert_eq!(refused(&file), reason.at(place).with_offset(offset));
                }
                let reason = fields_of(&numbers)[place].reason;
                for file in outside_its_field(&numbers, place) {
                    assert_eq!(refused(&file), reason.at(place).with_offset(offset));
                }
            }
        }
    }

    #[test]
    fn what_comes_after_is_refused_at_its_first_byte() {
        for (numbers, _) in EACH_LENGTHS.into_iter().flat_map(numbers_and_places) {
            let whole = write_numbers(&numbers);
            let offset = whole.len() as u64;
            let expected = Reason::BytesAfter.at(numbers.len()).with_offset(offset);
            for file in followed_by_few_and_many(&whole) {
                assert_eq!(refused(&file), expected);
            }
        }
    }

    #[test]
    fn fields_that_may_be_any_number_are_never_outside() {
        let numbers = period_of(&[1], FEW_LINES).numbers();
        let outside = |&place: &usize| !outside_its_field(&numbers, place).is_empty();
        let places: Vec<usize> = (0..numbers.len()).filter(|place| !outside(place)).collect();
        // Two exports, three outflows, five quantities.
        assert_eq!(places, [4, 7, 11, 14, 17, 22, 27, 32, 37, 42]);
    }

    #[test]
    fn factor_of_captured_fossil_is_refused_on_both_sides() {
        let numbers = period_of(&[1], FEW_LINES).numbers();
        let factor = numbers.len() - 1;
        let expected = [999, 1001, LIMIT]
            .map(|value| write_numbers(&with_values(&numbers, &[(factor, value)])));
        assert_eq!(outside_its_field(&numbers, factor), expected);
    }
}
