//! Files in which one number, or a few that belong together, is not what it was.

use super::whole_files::{of_counts, small_and_middle, EVERY_CLASS, MORE_PLANTS};
use crate::numbers::faults::every_fault_at;
use crate::numbers::number::LIMIT;
use crate::numbers::writing::{with_values, write_numbers};
use crate::periods::fields::fields_of;
use crate::periods::records::{Line, Plant, Segment};
use crate::periods::records::{HEADER_NUMBERS, LINES_AT, PLANTS_AT, SEGMENTS_AT};
use std::collections::BTreeSet;

/// Values that many fields are tested against, and values around every power of 128 and
/// around those where a narrower number would turn over.
const VALUES_FOR_ANY_FIELD: [u64; 33] = [
    15,
    16,
    17,
    31,
    32,
    33,
    127,
    128,
    255,
    256,
    257,
    262,
    511,
    512,
    513,
    16_383,
    16_384,
    65_535,
    65_536,
    65_537,
    65_542,
    999_999,
    1_000_000,
    1_000_001,
    2_097_152,
    268_435_456,
    999_999_999,
    1_000_000_000,
    1_000_000_001,
    LIMIT - 1,
    LIMIT,
    LIMIT + 1,
    1 << 32,
];
/// All values up to this one are tried: kinds, classes and the numbers of few records.
const LARGEST_SMALL_VALUE: u64 = 13;

/// Every way in which a number itself can be at fault, at every number.
pub fn every_fault_at_every_number() -> Vec<Vec<u8>> {
    let mut files = Vec::new();
    for numbers in small_and_middle() {
        for place in 0..numbers.len() {
            files.extend(every_fault_at(numbers, place));
        }
    }
    files
}

/// Every number replaced by every value that a limit is near.
pub fn every_value_at_every_number() -> Vec<Vec<u8>> {
    let mut files = Vec::new();
    for numbers in small_and_middle() {
        for place in 0..numbers.len() {
            for value in values_for(numbers, place) {
                files.push(write_numbers(&with_values(numbers, &[(place, value)])));
            }
        }
    }
    files
}

/// The values for any field, and those around the limits of the field at this place.
fn values_for(numbers: &[u64], place: usize) -> BTreeSet<u64> {
    let allowed = &fields_of(numbers)[place].allowed;
    let mut values = BTreeSet::from(VALUES_FOR_ANY_FIELD);
    values.extend(0..=LARGEST_SMALL_VALUE);
    for limit in [*allowed.start(), *allowed.end()] {
        values.extend(limit.saturating_sub(1)..=limit + 1);
    }
    values
}

/// Fields whose limits depend on each other, in every combination.
pub fn fields_that_belong_together() -> Vec<Vec<u8>> {
    let mut files = Vec::new();
    for numbers in [&EVERY_CLASS[..], &MORE_PLANTS] {
        files.extend(kinds_with_nexts(numbers));
        files.extend(owners_with_classes(numbers));
    }
    files.extend(nexts_of_many_segments());
    files
}

/// Kinds from 0 to two past the last.
const KINDS_TRIED: u64 = Segment::STORE + 2;
/// Owner kinds from 0 to two past the last.
const OWNER_KINDS_TRIED: u64 = 3;
/// Classes from 0 to some past the last.
const CLASSES_TRIED: u64 = 12;
/// How far past the count of records their numbers are tried.
const PAST_THE_COUNT: u64 = 2;

/// Every kind with every next segment, at every segment.
fn kinds_with_nexts(numbers: &[u64]) -> Vec<Vec<u8>> {
    let segments = numbers[SEGMENTS_AT];
    let mut files = Vec::new();
    for record in segment_places(numbers) {
        for kind in 0..=KINDS_TRIED {
            for next in 0..=segments + PAST_THE_COUNT {
                let values = [(record, kind), (record + Segment::NEXT_AT, next)];
                files.push(write_numbers(&with_values(numbers, &values)));
            }
        }
    }
    files
}

/// Every owner with every class, at the first, a middle and the last line.
fn owners_with_classes(numbers: &[u64]) -> Vec<Vec<u8>> {
    let most_records = numbers[PLANTS_AT].max(numbers[SEGMENTS_AT]);
    let lines = numbers[LINES_AT] as usize;
    let first = numbers.len() - lines * Line::NUMBERS;
    let middle = first + lines / 2 * Line::NUMBERS;
    let last = numbers.len() - Line::NUMBERS;
    let mut files = Vec::new();
    for record in [first, middle, last] {
        for kind in 0..=OWNER_KINDS_TRIED {
            for number in 0..=most_records + PAST_THE_COUNT {
                for class in 0..=CLASSES_TRIED {
                    let values = [
                        (record, kind),
                        (record + Line::OWNER_NUMBER_AT, number),
                        (record + Line::CLASS_AT, class),
                    ];
                    files.push(write_numbers(&with_values(numbers, &values)));
                }
            }
        }
    }
    files
}

/// Every next segment at every one of as many segments as can be, for the first kind, the last
/// that leads on, and the store.
fn nexts_of_many_segments() -> Vec<Vec<u8>> {
    let segments = *Segment::COUNT.end();
    let numbers = of_counts(1, segments, 0);
    let mut files = Vec::new();
    for record in segment_places(&numbers) {
        for kind in [*Segment::KINDS.start(), Segment::STORE - 1, Segment::STORE] {
            for next in 0..=segments + PAST_THE_COUNT {
                let values = [(record, kind), (record + Segment::NEXT_AT, next)];
                files.push(write_numbers(&with_values(&numbers, &values)));
            }
        }
    }
    files
}

/// The places where the segment records start.
fn segment_places(numbers: &[u64]) -> impl Iterator<Item = usize> {
    let start = HEADER_NUMBERS + numbers[PLANTS_AT] as usize * Plant::NUMBERS;
    let segments = numbers[SEGMENTS_AT] as usize;
    (0..segments).map(move |segment| start + segment * Segment::NUMBERS)
}
