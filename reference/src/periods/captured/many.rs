//! All plants at once, and as many lines of captured CO2 as there can be.

use super::{captured, file_of, fuel, LineNumbers};
use crate::numbers::number::LIMIT;
use crate::numbers::writing::write_numbers;
use crate::periods::accounts::Tables;
use crate::periods::case::PeriodCase;
use crate::periods::records::{Line, Plant, Segment, EDITION};

/// As many plants and lines as there can be.
const MOST_PLANTS: u64 = *Plant::COUNT.end();
const MOST_LINES: usize = *Line::COUNT.end() as usize;

/// All plants with all of their fuel captured, and the last one with a kg more.
pub fn cases_of_all_plants() -> [PeriodCase; 2] {
    [0, 1].map(case_of_all_plants)
}

/// As many plants as there can be at one store, each of which captures all of its fuel, the last
/// one `more` kg besides. What is captured comes first, plants of higher number before others.
fn case_of_all_plants(more: u64) -> PeriodCase {
    let mut numbers = vec![EDITION, MOST_PLANTS, 1, 2 * MOST_PLANTS];
    for plant in 1..=MOST_PLANTS {
        numbers.extend([plant, 1, Plant::WHOLE_FRACTION]);
    }
    let exported = (1..=MOST_PLANTS).sum();
    numbers.extend([Segment::STORE, exported, 0]);
    for plant in (1..=MOST_PLANTS).rev() {
        let kg = if plant == MOST_PLANTS {
            plant + more
        } else {
            plant
        };
        numbers.extend(captured(plant, kg));
    }
    for plant in 1..=MOST_PLANTS {
        numbers.extend(fuel(plant, plant, 1000));
    }
    PeriodCase {
        file: write_numbers(&numbers),
        tables: Tables::just_for(MOST_PLANTS as usize, 1),
    }
}

/// The most that lines can say captured in all of them, beside the most fuel in the last one, and
/// with a last line that passes the limit of grams; and fuel and captured kg by turns, as much of
/// the one as of the other and a kg more.
pub fn files_of_most_lines() -> Vec<Vec<u8>> {
    let largest = [captured(1, LIMIT); MOST_LINES];
    vec![
        file_of(&largest),
        file_of(&with_last(largest, fuel(1, LIMIT, 1000))),
        file_of(&with_last(largest, fuel(1, LIMIT, 1001))),
        file_of(&by_turns()),
        file_of(&with_last(by_turns(), captured(2, KG_OF_A_LINE + 1))),
    ]
}

/// The kg of each line with which half of the lines add up to the limit of grams.
const KG_OF_A_LINE: u64 = 2 * LIMIT / MOST_LINES as u64;

/// A plant's lines of fuel and of captured kg by turns, all with the same kg.
fn by_turns() -> [LineNumbers; MOST_LINES] {
    let mut lines = [fuel(2, KG_OF_A_LINE, 1000); MOST_LINES];
    for pair in lines.chunks_mut(2) {
        pair[1] = captured(2, KG_OF_A_LINE);
    }
    lines
}

/// The lines with another last one.
fn with_last(mut lines: [LineNumbers; MOST_LINES], last: LineNumbers) -> [LineNumbers; MOST_LINES] {
    lines[MOST_LINES - 1] = last;
    lines
}

#[cfg(test)]
mod tests {
    use super::super::answers::answers;
    use super::*;

    #[test]
    fn each_plant_captures_its_own_fuel() {
        let files = cases_of_all_plants().map(|case| case.file);
        // Header 4 bytes, a plant 5, a store 4, a line 6.
        let length = 4 + 16 * 5 + 4 + 32 * 6;
        let expected = [["0"; 16].join(" "), format!("R 16 16 {length}")];
        assert_eq!(answers(&files), expected);
    }

    #[test]
    fn only_other_lines_pass_the_limit_of_grams() {
        // 32 bytes before the lines, a line 10, by turns 9.
        assert_eq!(
            answers(&files_of_most_lines()),
            [
                "R 16 1 5152",
                "R 16 1 5152",
                "R 10 512 5142",
                "0 0 0",
                "R 16 2 4640",
            ]
        );
    }
}
