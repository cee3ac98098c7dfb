//! Writing the numbers of files, also of files that must be refused.

use super::number::write_number;

/// The bytes of the numbers, each in its shortest form.
pub fn write_numbers(numbers: &[u64]) -> Vec<u8> {
    numbers
        .iter()
        .flat_map(|&value| write_number(value))
        .collect()
}

/// The numbers with some replaced, each given by its place.
pub fn with_values(numbers: &[u64], values: &[(usize, u64)]) -> Vec<u64> {
    let mut changed = numbers.to_vec();
    for &(place, value) in values {
        changed[place] = value;
    }
    changed
}

/// The bytes of the numbers, the one at the place written as the given bytes.
pub fn write_with_form(numbers: &[u64], place: usize, form: &[u8]) -> Vec<u8> {
    let before = write_numbers(&numbers[..place]);
    let after = write_numbers(&numbers[place + 1..]);
    [&before, form, &after].concat()
}

#[cfg(test)]
mod tests {
    use super::*;

    #[test]
    fn numbers_stand_one_after_the_other() {
        assert_eq!(write_numbers(&[1, 300, 0]), [0x01, 0xAC, 0x02, 0x00]);
        assert_eq!(write_numbers(&[]), []);
    }

    #[test]
    fn one_number_takes_another_form() {
        let file = write_with_form(&[1, 300, 0], 1, &[0x80, 0x00]);
        assert_eq!(file, [0x01, 0x80, 0x00, 0x00]);
        assert_eq!(with_values(&[1, 300, 0], &[(0, 2), (2, 5)]), [2, 300, 5]);
    }
}
