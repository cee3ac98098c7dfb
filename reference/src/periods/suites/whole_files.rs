//! Whole files, as their numbers, that the suites cut, change and damage.

use crate::numbers::number::LIMIT;
use crate::periods::classes::classes_of;
use crate::periods::paper::WHOLE_PERIOD;
use crate::periods::records::{Line, Owner, Plant, Segment, EDITION};

/// The fewest records there can be.
pub const SMALLEST: [u64; 10] = [
    1, 1, 1, 0, //
    0, 1, 0, //
    6, 0, 0,
];

/// One record of each kind, every value the largest it can be; a larger class has but one factor.
pub const LARGE_VALUES: [u64; 15] = [
    1,
    1,
    1,
    1, //
    LIMIT,
    1,
    1_000_000, //
    6,
    LIMIT,
    0, //
    0,
    1,
    8,
    LIMIT,
    1_000_000_000,
];

/// Three plants, four segments with a store among them, and lines of every class that each
/// kind of owner can have.
pub const EVERY_CLASS: [u64; 95] = [
    1,
    3,
    4,
    14, //
    5000,
    1,
    250_000, //
    0,
    2,
    1_000_000, //
    123_456_789,
    3,
    1, //
    1,
    4900,
    2, //
    6,
    4899,
    0, //
    4,
    123_400_000,
    4, //
    6,
    0,
    0, //
    0,
    1,
    1,
    10,
    300, //
    0,
    2,
    2,
    0,
    16_384, //
    1,
    1,
    3,
    2_097_152,
    127, //
    0,
    3,
    3,
    128,
    127, //
    1,
    2,
    4,
    1,
    1, //
    0,
    1,
    4,
    16_383,
    255, //
    1,
    3,
    5,
    268_435_456,
    2, //
    0,
    2,
    5,
    999,
    1000, //
    1,
    4,
    6,
    7,
    268_435_455, //
    0,
    3,
    6,
    64,
    65_536, //
    1,
    4,
    7,
    500,
    1, //
    0,
    3,
    7,
    1,
    1_000_000_000, //
    0,
    1,
    8,
    LIMIT,
    3, //
    0,
    3,
    9,
    16,
    1000,
];

/// More plants than segments.
pub const MORE_PLANTS: [u64; 40] = [
    1, 5, 2, 3, //
    1000, 1, 500_000, //
    2000, 2, 0, //
    0, 1, 999_999, //
    300, 2, 1_000_000, //
    40_000, 1, 7, //
    5, 41_000, 2, //
    6, 43_000, 0, //
    0, 5, 8, 12, 34, //
    1, 2, 7, 0, 5, //
    0, 3, 1, 600, 0,
];

/// Small and middle-size whole files of every sort.
pub fn small_and_middle() -> [&'static [u64]; 5] {
    [
        &SMALLEST,
        &WHOLE_PERIOD,
        &LARGE_VALUES,
        &EVERY_CLASS,
        &MORE_PLANTS,
    ]
}

/// A file of these counts with small records, whole if the counts are allowed: one route
/// through all segments, and lines of the first plant.
pub fn of_counts(plants: u64, segments: u64, lines: u64) -> Vec<u64> {
    let mut numbers = vec![EDITION, plants, segments, lines];
    for _ in 0..plants {
        numbers.extend([0, 1, 0]);
    }
    for own in 1..segments {
        numbers.extend([1, 0, own + 1]);
    }
    if segments > 0 {
        numbers.extend([Segment::STORE, 0, 0]);
    }
    for _ in 0..lines {
        numbers.extend([Owner::PLANT, 1, 1, 0, 0]);
    }
    numbers
}

/// The longest file there can be: as many records as may be, every value the largest.
pub fn longest() -> Vec<u64> {
    let (plants, segments) = (*Plant::COUNT.end(), *Segment::COUNT.end());
    let lines = *Line::COUNT.end();
    let mut numbers = vec![EDITION, plants, segments, lines];
    for _ in 0..plants {
        numbers.extend([LIMIT, segments, Plant::WHOLE_FRACTION]);
    }
    for _ in 1..segments {
        numbers.extend([Segment::STORE - 1, LIMIT, segments]);
    }
    numbers.extend([Segment::STORE, LIMIT, 0]);
    let classes = classes_of(Owner::SEGMENT);
    for _ in 0..lines {
        let factor = *Line::FACTORS.end();
        numbers.extend([Owner::SEGMENT, segments, *classes.end(), LIMIT, factor]);
    }
    numbers
}

#[cfg(test)]
mod tests {
    use super::*;
    use crate::numbers::writing::write_numbers;
    use crate::periods::reading::read_period;

    #[test]
    fn whole_files_are_read_as_written() {
        for numbers in small_and_middle() {
            let period = read_period(&write_numbers(numbers)).expect("the file is whole");
            assert_eq!(period.numbers(), numbers);
        }
        let all = of_counts(16, 32, 512);
        let period = read_period(&write_numbers(&all)).expect("the file is whole");
        assert_eq!(period.numbers(), all);
    }

    #[test]
    fn longest_file_is_whole_and_as_long_as_can_be() {
        let file = write_numbers(&longest());
        assert!(read_period(&file).is_ok());
        // Header 5 bytes, a plant 9, a segment 7, a line 13.
        assert_eq!(file.len(), 5 + 16 * 9 + 32 * 7 + 512 * 13);
    }

    #[test]
    fn every_class_of_each_owner_has_its_line() {
        let file = write_numbers(&EVERY_CLASS);
        let lines = read_period(&file).expect("the file is whole").lines;
        for kind in Owner::KINDS {
            for class in classes_of(kind) {
                let found = |line: &Line| line.owner.numbers().0 == kind && line.class == class;
                assert!(lines.iter().any(found), "owner kind {kind}, class {class}");
            }
        }
    }
}
