//! Headers whose numbers are at their limits and past them, alone and with numbers behind them.

use crate::numbers::number::{write_number, LIMIT, MORE_FOLLOW, MOST_GROUPS};
use crate::numbers::writing::{with_values, write_numbers};
use crate::periods::fields::fields_of;
use crate::periods::paper::WHOLE_PERIOD;
use crate::periods::records::{HEADER_NUMBERS, LINES_AT, PLANTS_AT, SEGMENTS_AT};
use crate::periods::suites::whole_files::of_counts;
use std::collections::BTreeSet;
use std::ops::RangeInclusive;

/// What is added to the lowest value of a field, so that a narrower number would turn over to it.
const TURNS: [u64; 2] = [1 << 8, 1 << 16];

/// All files about headers, each once.
pub fn headers() -> Vec<Vec<u8>> {
    let mut files = BTreeSet::new();
    for place in 0..HEADER_NUMBERS {
        for value in values_around(&allowed_at(place)) {
            files.extend(with_header_number(place, value));
        }
        files.extend(faults_behind(&not_allowed_at(&[place])));
    }
    files.extend(several_not_allowed());
    files.into_iter().collect()
}

/// What the header's number at this place may be.
fn allowed_at(place: usize) -> RangeInclusive<u64> {
    fields_of(&WHOLE_PERIOD)[place].allowed.clone()
}

/// The limits of a field, the values next to them, and values far past the upper one.
fn values_around(allowed: &RangeInclusive<u64>) -> BTreeSet<u64> {
    let (lowest, largest) = (*allowed.start(), *allowed.end());
    let mut values = BTreeSet::from([LIMIT]);
    values.extend(lowest.saturating_sub(1)..=lowest + 1);
    values.extend(largest.saturating_sub(1)..=largest + 1);
    values.extend(TURNS.map(|turn| lowest + turn));
    values
}

/// The whole period's header with this number, ending with it, and with the header; and with
/// records behind it: all of them, without the last byte, and with a number more.
fn with_header_number(place: usize, value: u64) -> [Vec<u8>; 5] {
    let header = with_values(&WHOLE_PERIOD[..HEADER_NUMBERS], &[(place, value)]);
    let whole = write_numbers(&with_records(&header, allowed_at(place).contains(&value)));
    [
        write_numbers(&header[..=place]),
        write_numbers(&header),
        whole[..whole.len() - 1].to_vec(),
        [&whole[..], &[0]].concat(),
        whole,
    ]
}

/// The header with as many records as it says, or with those of the whole period if it is not
/// allowed.
fn with_records(header: &[u64], is_allowed: bool) -> Vec<u64> {
    if is_allowed {
        of_counts(header[PLANTS_AT], header[SEGMENTS_AT], header[LINES_AT])
    } else {
        [header, &WHOLE_PERIOD[HEADER_NUMBERS..]].concat()
    }
}

/// The whole period with the header's numbers at these places one past what they may be.
fn not_allowed_at(places: &[usize]) -> Vec<u64> {
    let values: Vec<(usize, u64)> = places
        .iter()
        .map(|&place| (place, allowed_at(place).end() + 1))
        .collect();
    with_values(&WHOLE_PERIOD, &values)
}

/// The header of these numbers, and behind it one more number and then one of each fault.
fn faults_behind(numbers: &[u64]) -> [Vec<u8>; 4] {
    let before = write_numbers(&numbers[..=HEADER_NUMBERS]);
    let forms = [
        vec![MORE_FOLLOW],
        vec![MORE_FOLLOW, 0],
        vec![MORE_FOLLOW; MOST_GROUPS],
        write_number(LIMIT + 1),
    ];
    forms.map(|form| [&before[..], &form].concat())
}

/// The whole period with every choice of numbers in its header that are not allowed.
fn several_not_allowed() -> Vec<Vec<u8>> {
    let choices = 0..1 << HEADER_NUMBERS;
    let numbers_of = |choice: usize| {
        let places = (0..HEADER_NUMBERS).filter(|place| choice >> place & 1 == 1);
        not_allowed_at(&places.collect::<Vec<_>>())
    };
    choices
        .map(|choice| write_numbers(&numbers_of(choice)))
        .collect()
}

#[cfg(test)]
mod tests {
    use super::*;
    use crate::periods::inspection::page::inspect;
    use crate::periods::inspection::page::pages_checked::closing;

    /// The values that are tried at this place of the header.
    fn tried_at(place: usize) -> Vec<u64> {
        values_around(&allowed_at(place)).into_iter().collect()
    }

    #[test]
    fn values_are_at_the_limits_and_past_them() {
        assert_eq!(tried_at(0), [0, 1, 2, 257, 65_537, LIMIT]);
        let expected = [0, 1, 2, 15, 16, 17, 257, 65_537, LIMIT];
        assert_eq!(tried_at(1), expected);
        let expected = [0, 1, 2, 31, 32, 33, 257, 65_537, LIMIT];
        assert_eq!(tried_at(2), expected);
        let expected = [0, 1, 256, 511, 512, 513, 65_536, LIMIT];
        assert_eq!(tried_at(3), expected);
    }

    #[test]
    fn pages_close_as_the_header_tells() {
        let closings = |place, value| with_header_number(place, value).map(|file| closing(&file));
        // 16 plants, 2 segments, 2 lines: 4 + 16 * 3 + 2 * 3 + 2 * 5 = 68 numbers of a byte.
        assert_eq!(
            closings(1, 16),
            [
                "R 1 2 2, E 2 2",
                "R 1 4 4, E 4 4",
                "R 1 67 67, E 67 67",
                "R 9 68 68, E 69 69",
                "E 68 68",
            ]
        );
        assert_eq!(
            closings(1, 17),
            [
                "R 5 1 1, E 2 2",
                "R 5 1 1, E 4 4",
                "R 5 1 1, F 1 25",
                "R 5 1 1, E 27 38",
                "R 5 1 1, E 26 37",
            ]
        );
        assert_eq!(
            closings(3, 513),
            [
                "R 5 3 3, E 4 5",
                "R 5 3 3, E 4 5",
                "R 5 3 3, F 1 25",
                "R 5 3 3, E 27 39",
                "R 5 3 3, E 26 38",
            ]
        );
    }

    #[test]
    fn first_number_that_is_not_allowed_is_refused() {
        let closing_of = |places: &[usize]| closing(&write_numbers(&not_allowed_at(places)));
        assert_eq!(closing_of(&[0, 1, 2, 3]), "R 4 0 0, E 26 38");
        assert_eq!(closing_of(&[1, 2, 3]), "R 5 1 1, E 26 38");
        assert_eq!(closing_of(&[2, 3]), "R 5 2 2, E 26 38");
        assert_eq!(closing_of(&[3]), "R 5 3 3, E 26 38");
    }

    #[test]
    fn each_number_that_is_not_allowed_hides_what_is_behind() {
        let told = |file: &&Vec<u8>| !inspect(file).to_string().contains("not told");
        let files = several_not_allowed();
        assert_eq!(files.iter().filter(told).count(), 1, "the whole period");
    }

    #[test]
    fn faults_are_told_behind_a_header_that_is_not_allowed() {
        let closings = faults_behind(&not_allowed_at(&[0])).map(|file| closing(&file));
        assert_eq!(
            closings,
            [
                "R 4 0 0, F 1 5",
                "R 4 0 0, F 2 5",
                "R 4 0 0, F 3 5",
                "R 4 0 0, F 3 5"
            ]
        );
    }
}
