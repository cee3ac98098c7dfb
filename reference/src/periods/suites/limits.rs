//! Files at the limits of the counts and of the fields, and one past them.

use super::whole_files::of_counts;
use crate::numbers::writing::{with_values, write_numbers};
use crate::periods::classes::{CAPTURED_FOSSIL, GRAMS_OF_A_KG};
use crate::periods::fields::fields_of;
use crate::periods::records::{Line, Plant, Segment, HEADER_NUMBERS};
use std::ops::{Range, RangeInclusive};

/// Lines at which the fields of a file with many lines are changed.
const LINES_CHANGED: [usize; 6] = [1, 2, 255, 256, 511, 512];
/// Lines of them that say what was captured.
const LINES_CAPTURED: [usize; 2] = [1, 512];

/// Counts at and past their limits, and the same for every field of the largest files.
pub fn at_and_one_past() -> Vec<Vec<u8>> {
    let mut files = files_of_counts();
    files.extend(counts_beside_the_records());

    let many_segments = of_counts(*Plant::COUNT.end(), *Segment::COUNT.end(), 0);
    let all_places = HEADER_NUMBERS..many_segments.len();
    files.extend(fields_around_limits(&many_segments, all_places));

    let many_lines = of_counts(1, 1, *Line::COUNT.end());
    let first_line = many_lines.len() - *Line::COUNT.end() as usize * Line::NUMBERS;
    let record_of = |line: usize| first_line + (line - 1) * Line::NUMBERS;
    for record in LINES_CHANGED.map(record_of) {
        let places = record..record + Line::NUMBERS;
        files.extend(fields_around_limits(&many_lines, places));
    }
    for record in LINES_CAPTURED.map(record_of) {
        files.extend(captured_around_limits(&many_lines, record));
    }
    files
}

/// The line that starts at this place says that nothing was captured, and its class, quantity and
/// factor are around their limits.
fn captured_around_limits(numbers: &[u64], record: usize) -> Vec<Vec<u8>> {
    let class = record + Line::CLASS_AT;
    let factor = record + Line::FACTOR_AT;
    let values = [(class, CAPTURED_FOSSIL), (factor, GRAMS_OF_A_KG)];
    fields_around_limits(&with_values(numbers, &values), class..factor + 1)
}

/// Files with just as many records as each combination of counts says.
fn files_of_counts() -> Vec<Vec<u8>> {
    let mut files = Vec::new();
    for plants in counts_around(&Plant::COUNT) {
        for segments in counts_around(&Segment::COUNT) {
            for lines in counts_around(&Line::COUNT) {
                files.push(write_numbers(&of_counts(plants, segments, lines)));
            }
        }
    }
    files
}

/// 0, 1, the most, and one more.
fn counts_around(range: &RangeInclusive<u64>) -> [u64; 4] {
    [0, 1, *range.end(), range.end() + 1]
}

/// The largest file, each count of its header one less and one more than there are records.
fn counts_beside_the_records() -> Vec<Vec<u8>> {
    let numbers = of_counts(
        *Plant::COUNT.end(),
        *Segment::COUNT.end(),
        *Line::COUNT.end(),
    );
    let mut files = Vec::new();
    for place in 1..HEADER_NUMBERS {
        for count in [numbers[place] - 1, numbers[place] + 1] {
            files.push(write_numbers(&with_values(&numbers, &[(place, count)])));
        }
    }
    files
}

/// Each number at these places replaced by its field's limits and by the values next to them.
fn fields_around_limits(numbers: &[u64], places: Range<usize>) -> Vec<Vec<u8>> {
    let fields = fields_of(numbers);
    let mut files = Vec::new();
    for place in places {
        let (lowest, largest) = (*fields[place].allowed.start(), *fields[place].allowed.end());
        let mut values = vec![lowest, largest, largest + 1];
        if lowest > 0 {
            values.push(lowest - 1);
        }
        for value in values {
            files.push(write_numbers(&with_values(numbers, &[(place, value)])));
        }
    }
    files
}
