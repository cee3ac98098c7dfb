//! Captured grams above those of fuel, and something else wrong besides: the order of refusals.

use super::{all_captured, captured, case_of, file_of, fuel, inputs, numbers_of, LineNumbers};
use crate::numbers::number::LIMIT;
use crate::numbers::writing::{with_values, write_numbers};
use crate::periods::accounts::Tables;
use crate::periods::case::PeriodCase;
use crate::periods::classes::{FUEL, GRAMS_OF_A_KG};
use crate::periods::records::Owner;

/// Places of numbers that are changed.
const FIRST_EXPORT: usize = 4;
const SECOND_EXPORT: usize = 7;
const FIRST_OUTFLOW: usize = 14;

/// An inflow of the first segment past its limit, an outflow over its inflow, and no inflow.
const INFLOW_TOO_LARGE: [(usize, u64); 2] = [(FIRST_EXPORT, LIMIT), (SECOND_EXPORT, LIMIT)];
const OUTFLOW_OVER_INFLOW: [(usize, u64); 1] = [(FIRST_OUTFLOW, 15_002)];
const NOTHING_FLOWS: [(usize, u64); 3] =
    [(FIRST_EXPORT, 0), (SECOND_EXPORT, 0), (FIRST_OUTFLOW, 0)];

/// The first segment's fuel, which needs an inflow.
const FUEL_OF_FIRST_SEGMENT: LineNumbers = [Owner::SEGMENT, 1, FUEL, 1, GRAMS_OF_A_KG];

/// Several plants, a later gram total, and each fault of a segment.
pub fn of_several_faults() -> Vec<Vec<u8>> {
    let several_plants: [&[LineNumbers]; 4] = [
        &[captured(2, 1), captured(3, 1)],
        &[captured(3, LIMIT), captured(2, 1)],
        &[
            captured(3, 1),
            captured(1, 2),
            fuel(1, 2, 999),
            fuel(2, 9, 9),
        ],
        &[captured(1, 1), fuel(1, 1, 1), inputs(3, LIMIT, 1001)],
    ];
    let mut files = several_plants.map(file_of).to_vec();
    let above_fuel = [captured(2, 1), FUEL_OF_FIRST_SEGMENT];
    for faults in [&INFLOW_TOO_LARGE[..], &OUTFLOW_OVER_INFLOW, &NOTHING_FLOWS] {
        files.push(with_faults(&above_fuel, faults));
        // the same without the plant's fault
        files.push(with_faults(
            &[captured(2, 0), FUEL_OF_FIRST_SEGMENT],
            faults,
        ));
    }
    files.push([file_of(&above_fuel), vec![0]].concat());
    files
}

/// The file of these lines with some numbers of plants and segments changed.
fn with_faults(lines: &[LineNumbers], faults: &[(usize, u64)]) -> Vec<u8> {
    write_numbers(&with_values(&numbers_of(lines), faults))
}

/// Tables that are too short for the rows, with captured grams above fuel and with all of it.
pub fn with_short_tables() -> Vec<PeriodCase> {
    let mut cases = Vec::new();
    for file in [all_captured(), file_of(&[captured(1, 1)])] {
        let enough = case_of(file);
        let Tables { plant, segment } = enough.tables;
        let shorter = [(plant - 1, segment), (plant, segment - 1), (0, 0)];
        cases.extend(shorter.map(|(plant, segment)| PeriodCase {
            tables: Tables { plant, segment },
            ..enough.clone()
        }));
    }
    cases
}

#[cfg(test)]
mod tests {
    use super::super::answers::answers;
    use super::*;

    #[test]
    fn plants_come_in_their_order_behind_lines_and_before_segments() {
        assert_eq!(
            answers(&of_several_faults()),
            [
                "R 16 2 43",
                "R 16 2 47",
                "R 16 1 54",
                "R 10 3 42",
                // exports of five bytes in place of two
                "R 16 2 49",
                "R 11 1 49",
                "R 16 2 43",
                "R 12 1 43",
                // exports and an outflow of one byte
                "R 16 2 40",
                "R 13 1 40",
                "R 9 29 43",
            ]
        );
    }

    #[test]
    fn plants_come_before_tables() {
        let answers: Vec<String> = with_short_tables().iter().map(PeriodCase::answer).collect();
        assert_eq!(
            answers,
            [
                "R 14 24 43",
                "R 15 10 43",
                "R 14 24 43",
                "R 16 1 37",
                "R 16 1 37",
                "R 16 1 37",
            ]
        );
    }
}
