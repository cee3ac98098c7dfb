//! What is taken from fuel, up to all of it and more: accepted, and refusals 10 and 16.

use super::{captured, file_of, fuel, inputs, LineNumbers, ALL_FUEL};
use crate::numbers::number::LIMIT;
use crate::periods::account_limits::inflows::TURNS_OVER;
use crate::periods::classes::{ELECTRICITY, FUEL, GRAMS_OF_A_KG};
use crate::periods::records::Owner;

/// A line of a segment's fuel.
const FUEL_OF_A_SEGMENT: LineNumbers = [Owner::SEGMENT, 1, FUEL, 5, GRAMS_OF_A_KG];
/// A line of the first plant's electricity.
const ELECTRICITY_OF_A_PLANT: LineNumbers = [Owner::PLANT, 1, ELECTRICITY, 5, GRAMS_OF_A_KG];

/// Files whose captured grams are at most those of fuel.
pub fn accepted() -> Vec<Vec<u8>> {
    let files: [&[LineNumbers]; 11] = [
        // all of the fuel, and all but a kg, a gram and nearly a kg of it
        &ALL_FUEL,
        &[fuel(1, 2, 2500), captured(1, 4)],
        &[fuel(1, 5001, 1), captured(1, 5)],
        &[fuel(1, 5999, 1), captured(1, 5)],
        // before the fuel, and in several lines
        &[captured(2, 3), fuel(2, 3, 1000)],
        &[
            captured(1, 2),
            fuel(1, 700, 1),
            fuel(1, 1300, 1),
            captured(1, 3),
            fuel(1, 1, 3000),
        ],
        // nothing captured, without fuel
        &[captured(1, 0)],
        &[captured(3, 0), inputs(3, 1, 1)],
        // taken before the one rounding of all classes
        &[fuel(1, 1500, 1), inputs(1, 700, 1), captured(1, 1)],
        &[fuel(1, 1500, 1), inputs(1, 400, 1), captured(1, 1)],
        // all plants, each from its own fuel; the segment's stays
        &[
            captured(3, 1),
            fuel(1, 3, 1000),
            captured(2, 2),
            FUEL_OF_A_SEGMENT,
            fuel(3, 1001, 1),
            captured(1, 3),
            fuel(2, 2, 1000),
        ],
    ];
    [files.map(file_of).to_vec(), largest_total()].concat()
}

/// Files with the largest total of other grams, of which a kg, all and half is captured.
fn largest_total() -> Vec<Vec<u8>> {
    let files: [&[LineNumbers]; 3] = [
        &[fuel(1, LIMIT, 1000), captured(1, 1)],
        &[captured(2, LIMIT), fuel(2, LIMIT, 1000)],
        &[
            inputs(1, LIMIT / 2, 1000),
            captured(1, LIMIT / 2),
            fuel(1, LIMIT / 2, 1000),
        ],
    ];
    files.map(file_of).to_vec()
}

/// Files whose captured grams are above those of fuel, or whose other grams pass the limit.
pub fn refused() -> Vec<Vec<u8>> {
    let files: [&[LineNumbers]; 15] = [
        // a kg more, a gram short, and without fuel
        &[fuel(1, 2, 2500), captured(1, 6)],
        &[fuel(3, 4999, 1), captured(3, 5)],
        &[captured(1, 1)],
        &[captured(2, LIMIT)],
        // in several lines, and before the fuel
        &[fuel(1, 2, 1000), captured(1, 1), captured(1, 2)],
        &[captured(2, 3), fuel(2, 1, 1000), fuel(2, 1999, 1)],
        // other classes, other plants and segments give no fuel
        &[captured(1, 1), ELECTRICITY_OF_A_PLANT],
        &[captured(1, 1), FUEL_OF_A_SEGMENT],
        &[captured(1, 1), fuel(2, 5, 1000), fuel(3, 5, 1000)],
        // more than 32 bits of kg, and a total that turns over there
        &[captured(2, LIMIT), captured(2, LIMIT), fuel(2, LIMIT, 1000)],
        &[captured(1, LIMIT), captured(1, TURNS_OVER - LIMIT)],
        // what is captured makes no room for other grams
        &[captured(1, LIMIT), fuel(1, LIMIT, 1000), inputs(1, 1, 1)],
        &[fuel(1, LIMIT, 1000), fuel(1, 1, 1), captured(1, LIMIT)],
        // and takes none
        &[captured(1, LIMIT), captured(1, LIMIT), fuel(1, LIMIT, 1001)],
        &[captured(3, LIMIT), inputs(3, LIMIT, 1000)],
    ];
    files.map(file_of).to_vec()
}

#[cfg(test)]
mod tests {
    use super::super::answers::answers;
    use super::*;

    #[test]
    fn what_is_left_is_rounded_up_once() {
        assert_eq!(
            answers(&accepted()),
            [
                "0 0 0",
                "1 0 0",
                "1 0 0",
                "1 0 0",
                "0 0 0",
                "0 0 0",
                "0 0 0",
                "0 0 1",
                "2 0 0",
                "1 0 0",
                // 5 kg of the segment for 10,000 and 5001 of 15,001 kg; a gram of the third plant
                "4 2 1",
                "3999999999 0 0",
                "0 0 0",
                "2000000000 0 0",
            ]
        );
    }

    #[test]
    fn refusals_name_the_plant_or_the_line() {
        // 31 bytes before the lines. A line of 1 kg has 6 bytes, of the largest number 10.
        assert_eq!(
            answers(&refused()),
            [
                "R 16 1 43",
                "R 16 3 43",
                "R 16 1 37",
                "R 16 2 41",
                "R 16 1 49",
                "R 16 2 49",
                "R 16 1 43",
                "R 16 1 43",
                "R 16 1 49",
                "R 16 2 61",
                "R 16 1 51",
                "R 10 3 51",
                "R 10 2 41",
                "R 10 3 51",
                "R 16 3 51",
            ]
        );
    }
}
