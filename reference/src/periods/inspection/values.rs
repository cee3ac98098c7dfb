//! Numbers behind the header that are out of their fields' ranges: the walk prints them and goes
//! on, reading refuses the file.

use crate::numbers::number::{GROUP_BITS, LIMIT, MOST_GROUPS};
use crate::numbers::writing::{with_values, write_numbers};
use crate::periods::fields::fields_of;
use crate::periods::paper::WHOLE_PERIOD;
use crate::periods::records::HEADER_NUMBERS;
use crate::periods::suites::whole_files::longest;
use crate::seeded::Seeded;
use std::collections::BTreeSet;

/// How many files of seeded values there are.
const SEEDED_FILES: usize = 8;
/// The seed of these values.
const SEED_OF_VALUES: u64 = 0x5EED_0010;

/// All files about values behind the header.
pub fn values_behind_header() -> Vec<Vec<u8>> {
    let mut files = one_number_outside();
    files.extend(all_numbers_alike(&WHOLE_PERIOD, &edges_of_groups()));
    files.extend(all_numbers_alike(&longest(), &[0, LIMIT]));
    files.extend(seeded_values());
    files
}

/// Each number behind the header of the whole period next to what it may be, and the largest.
fn one_number_outside() -> Vec<Vec<u8>> {
    let mut files = Vec::new();
    for place in HEADER_NUMBERS..WHOLE_PERIOD.len() {
        for value in values_outside(place) {
            files.push(write_numbers(&with_values(
                &WHOLE_PERIOD,
                &[(place, value)],
            )));
        }
    }
    files
}

/// The values next to what a number of the whole period may be, and the largest of all.
fn values_outside(place: usize) -> BTreeSet<u64> {
    let allowed = &fields_of(&WHOLE_PERIOD)[place].allowed;
    let above = (allowed.end() + 1).min(LIMIT);
    let below = allowed.start().checked_sub(1);
    below.into_iter().chain([above, LIMIT]).collect()
}

/// The smallest and the largest value of every count of groups.
fn edges_of_groups() -> Vec<u64> {
    let mut edges = vec![0];
    for groups in 1..MOST_GROUPS {
        let next = 1 << (GROUP_BITS * groups);
        edges.extend([next - 1, next]);
    }
    edges.push(LIMIT);
    edges
}

/// For each of the values a file with this header and all other numbers of that value.
fn all_numbers_alike(numbers: &[u64], values: &[u64]) -> Vec<Vec<u8>> {
    let header = &numbers[..HEADER_NUMBERS];
    let file_of = |&value: &u64| {
        let behind = vec![value; numbers.len() - HEADER_NUMBERS];
        write_numbers(&[header, &behind].concat())
    };
    values.iter().map(file_of).collect()
}

/// The whole period's header with seeded values of any size behind it.
fn seeded_values() -> Vec<Vec<u8>> {
    let mut seeded = Seeded::new(SEED_OF_VALUES);
    let mut files = Vec::new();
    for _ in 0..SEEDED_FILES {
        let mut numbers = WHOLE_PERIOD;
        for number in &mut numbers[HEADER_NUMBERS..] {
            *number = seeded.of_any_size(LIMIT);
        }
        files.push(write_numbers(&numbers));
    }
    files
}

#[cfg(test)]
mod tests {
    use super::*;
    use crate::periods::inspection::page::{inspect, End};

    fn outside_at(place: usize) -> Vec<u64> {
        values_outside(place).into_iter().collect()
    }

    #[test]
    fn values_are_next_to_what_is_allowed() {
        assert_eq!(outside_at(4), [LIMIT], "any number is allowed");
        assert_eq!(outside_at(5), [0, 3, LIMIT]);
        assert_eq!(outside_at(6), [1_000_001, LIMIT]);
        assert_eq!(outside_at(12), [1, 3, LIMIT]);
        assert_eq!(outside_at(23), [2, 8, LIMIT], "a segment's class");
    }

    #[test]
    fn edges_have_every_count_of_groups() {
        assert_eq!(
            edges_of_groups(),
            [
                0,
                127,
                128,
                16_383,
                16_384,
                2_097_151,
                2_097_152,
                268_435_455,
                268_435_456,
                LIMIT
            ]
        );
    }

    #[test]
    fn files_are_mostly_refused_and_always_walked_to_their_end() {
        let files = values_behind_header();
        let mut refused = 0;
        for file in &files {
            let length = file.len() as u64;
            let page = inspect(file);
            assert!(matches!(page.end, End::OfFile { byte, .. } if byte == length));
            refused += usize::from(page.refused.is_some());
        }
        assert!(refused >= files.len() * 3 / 4);
    }
}
