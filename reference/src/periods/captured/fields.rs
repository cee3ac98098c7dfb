//! Lines of captured CO2 with fields that are not allowed: refusals 1, 2, 3 and 8.

use super::{captured, file_of, fuel, numbers_of, LineNumbers};
use crate::numbers::number::{padded, write_number, LIMIT};
use crate::numbers::writing::{write_numbers, write_with_form};
use crate::periods::classes::{CAPTURED_FOSSIL, GRAMS_OF_A_KG};
use crate::periods::records::{Line, Owner};

/// Factors on both sides of the one that is allowed, near it and far from it.
const OTHER_FACTORS: [u64; 7] = [
    0,
    1,
    GRAMS_OF_A_KG - 1,
    GRAMS_OF_A_KG + 1,
    1_000_000,
    *Line::FACTORS.end(),
    *Line::FACTORS.end() + 1,
];
/// The largest number of 32 bits, which no number of a file may be.
const LARGEST_OF_32_BITS: u64 = u32::MAX as u64;

/// Other factors, other owners and the next class, each with another line before and behind it;
/// quantities at the limit of numbers and past it; and files that end in such a line.
pub fn at_and_past_their_limits() -> Vec<Vec<u8>> {
    let mut lines: Vec<LineNumbers> = OTHER_FACTORS
        .map(|factor| [Owner::PLANT, 1, CAPTURED_FOSSIL, 7, factor])
        .to_vec();
    lines.extend([
        [Owner::SEGMENT, 1, CAPTURED_FOSSIL, 0, GRAMS_OF_A_KG],
        [Owner::SEGMENT, 2, CAPTURED_FOSSIL, 7, 0],
        [Owner::SEGMENT, 3, CAPTURED_FOSSIL, 0, GRAMS_OF_A_KG],
        [Owner::PLANT, 4, CAPTURED_FOSSIL, 0, GRAMS_OF_A_KG],
        [Owner::PLANT, 1, CAPTURED_FOSSIL + 1, 0, GRAMS_OF_A_KG],
        [Owner::SEGMENT, 1, CAPTURED_FOSSIL + 1, 0, GRAMS_OF_A_KG],
        captured(1, LIMIT),
        captured(1, LIMIT + 1),
        captured(1, LARGEST_OF_32_BITS),
    ]);
    let before_and_behind =
        |&line: &LineNumbers| file_of(&[fuel(1, 7, 1000), line, captured(2, 0)]);
    let mut files: Vec<Vec<u8>> = lines.iter().map(before_and_behind).collect();
    files.extend(ends_in_factor());
    files
}

/// The file ends before the last factor, inside it, and before the line that it is in; and this
/// factor is not in shortest form.
fn ends_in_factor() -> [Vec<u8>; 4] {
    let numbers = numbers_of(&[captured(1, 0), captured(1, 0)]);
    let factor = numbers.len() - 1;
    let before = write_numbers(&numbers[..factor]);
    let form = write_number(GRAMS_OF_A_KG);
    [
        before.clone(),
        [&before[..], &form[..1]].concat(),
        write_numbers(&numbers[..numbers.len() - Line::NUMBERS]),
        write_with_form(&numbers, factor, &padded(&form, form.len() + 1)),
    ]
}

#[cfg(test)]
mod tests {
    use super::super::answers::answers;
    use super::*;

    #[test]
    fn fields_are_refused_at_their_number_and_byte() {
        // 19 numbers and 31 bytes before the lines, and a line of 5 numbers and 6 bytes.
        let mut expected = vec!["R 8 28 41"; OTHER_FACTORS.len()];
        expected.extend([
            "R 8 26 39",
            "R 8 26 39",
            "R 8 25 38",
            "R 8 25 38",
            "R 8 26 39",
            "R 8 26 39",
            "R 16 1 53",
            "R 3 27 40",
            "R 3 27 40",
            // behind a line of 6 bytes
            "R 1 28 41",
            "R 1 28 41",
            "R 1 24 37",
            "R 2 28 41",
        ]);
        assert_eq!(answers(&at_and_past_their_limits()), expected);
    }
}
