//! Reading a period file into records: refusals 1 to 9.

use super::fields::field_after;
use super::records::Period;
use crate::numbers::in_order::NumbersInOrder;
use crate::refusal::Refused;

/// The period that is the whole of the file.
pub fn read_period(file: &[u8]) -> Result<Period, Refused> {
    let numbers = read_numbers(file)?;
    Ok(Period::from_numbers(numbers.numbers()))
}

/// Reads the numbers of a period front to back, each tested for itself and for its
/// field before the next one is read.
pub fn read_numbers(file: &[u8]) -> Result<NumbersInOrder<'_>, Refused> {
    let mut numbers = NumbersInOrder::of(file);
    while let Some(field) = field_after(numbers.numbers()) {
        numbers.read_within(&field.allowed, field.reason)?;
    }
    numbers.end()?;
    Ok(numbers)
}

#[cfg(test)]
mod tests {
    use super::*;
    use crate::numbers::faults::one_fault_at_each_place;
    use crate::numbers::number::LIMIT;
    use crate::numbers::writing::{with_values, write_numbers};
    use crate::periods::paper::{whole_period, WHOLE_PERIOD};

    fn refused(file: &[u8]) -> String {
        match read_period(file) {
            Ok(_) => "accepted".to_string(),
            Err(refused) => refused.to_string(),
        }
    }

    /// What the whole period is refused for with one number replaced.
    fn refused_with(place: usize, value: u64) -> String {
        refused_with_all(&[(place, value)])
    }

    /// What the whole period is refused for with some numbers replaced.
    fn refused_with_all(values: &[(usize, u64)]) -> String {
        refused(&write_numbers(&with_values(&WHOLE_PERIOD, values)))
    }

    #[test]
    fn whole_period_is_read() {
        let period = read_period(&whole_period()).expect("the period is whole");
        assert_eq!(period.numbers(), WHOLE_PERIOD);
    }

    #[test]
    fn number_at_fault_is_refused_at_its_place_and_byte() {
        for (file, expected) in one_fault_at_each_place(&WHOLE_PERIOD) {
            assert_eq!(refused(&file), expected);
        }
    }

    #[test]
    fn header_is_tested_field_by_field() {
        assert_eq!(refused_with(0, 0), "R 4 0 0");
        assert_eq!(refused_with(0, 2), "R 4 0 0");
        assert_eq!(refused_with(1, 0), "R 5 1 1");
        assert_eq!(refused_with(1, 17), "R 5 1 1");
        assert_eq!(refused_with(2, 0), "R 5 2 2");
        assert_eq!(refused_with(2, 33), "R 5 2 2");
        assert_eq!(refused_with(3, 513), "R 5 3 3");
    }

    #[test]
    fn plant_is_tested_field_by_field() {
        assert_eq!(refused_with(4, LIMIT), "accepted");
        assert_eq!(refused_with(5, 0), "R 6 5 6");
        assert_eq!(refused_with(5, 2), "accepted");
        assert_eq!(refused_with(5, 3), "R 6 5 6");
        assert_eq!(refused_with(9, 1_000_000), "accepted");
        assert_eq!(refused_with(9, 1_000_001), "R 6 9 13");
    }

    #[test]
    fn segment_is_tested_field_by_field() {
        assert_eq!(refused_with(10, 0), "R 7 10 16");
        assert_eq!(refused_with(10, 5), "accepted");
        assert_eq!(refused_with(10, 7), "R 7 10 16");
        assert_eq!(refused_with(11, LIMIT), "accepted");
        assert_eq!(refused_with(12, 0), "R 7 12 19", "a pipeline leads on");
        assert_eq!(refused_with(12, 1), "R 7 12 19", "not to itself");
        assert_eq!(refused_with(12, 3), "R 7 12 19", "not past the last");
        assert_eq!(refused_with(10, 6), "R 7 12 19", "a store leads nowhere");
        assert_eq!(refused_with(13, 5), "R 7 15 23", "the last is a store");
        assert_eq!(refused_with(15, 1), "R 7 15 23");
    }

    #[test]
    fn line_is_tested_field_by_field() {
        assert_eq!(refused_with(16, 2), "R 8 16 24");
        assert_eq!(refused_with(17, 0), "R 8 17 25");
        assert_eq!(refused_with(17, 3), "R 8 17 25");
        assert_eq!(refused_with(18, 0), "R 8 18 26");
        assert_eq!(refused_with(18, 8), "accepted");
        assert_eq!(refused_with(18, 9), "R 8 20 29", "its factor is 350");
        assert_eq!(refused_with(18, 10), "R 8 18 26");
        assert_eq!(refused_with(19, LIMIT), "accepted");
        assert_eq!(refused_with(20, 1_000_000_000), "accepted");
        assert_eq!(refused_with(20, 1_000_000_001), "R 8 20 29");
        for class in [0, 1, 2, 8, 9, 10] {
            assert_eq!(
                refused_with(23, class),
                "R 8 23 33",
                "a segment's class {class}"
            );
        }
        for class in 3..=7 {
            assert_eq!(refused_with(23, class), "accepted");
        }
    }

    #[test]
    fn captured_fossil_has_one_factor() {
        let with_factor = |factor| refused_with_all(&[(18, 9), (20, factor)]);
        assert_eq!(with_factor(1000), "accepted");
        for factor in [0, 1, 999, 1001, 1_000_000_000, 1_000_000_001, LIMIT] {
            assert_eq!(with_factor(factor), "R 8 20 29", "factor {factor}");
        }
        assert_eq!(
            refused_with_all(&[(18, 9), (19, LIMIT), (20, 999)]),
            "R 8 20 32"
        );
    }

    #[test]
    fn store_before_the_last_segment_is_allowed() {
        assert_eq!(refused_with_all(&[(10, 6), (12, 0)]), "accepted");
    }

    #[test]
    fn field_is_tested_before_the_next_number_is_read() {
        assert_eq!(refused(&[0x02]), "R 4 0 0");
        assert_eq!(refused(&[0x01, 0x00, 0x80, 0x00]), "R 5 1 1");
        let mut file = write_numbers(&WHOLE_PERIOD[..5]);
        file.push(0);
        assert_eq!(refused(&file), "R 6 5 6");
    }

    #[test]
    fn bytes_behind_the_last_number_need_not_be_a_number() {
        for after in [&[0x00][..], &[0x80], &[0x80, 0x00], &[0xFF; 6]] {
            let file = [&whole_period(), after].concat();
            assert_eq!(refused(&file), "R 9 26 37");
        }
    }
}
