//! Which field each number of a period file is, and what it may be.

use super::classes::{classes_of, factors_of};
use super::record_places::{RecordKind, RecordPlace};
use super::records::{Line, Owner, Plant, Segment, ANY_NUMBER, EDITION, HEADER_NUMBERS};
use crate::refusal::Reason;
use std::ops::RangeInclusive;

/// One field: what it may be, and why the file is refused if it is something else.
#[derive(Clone, Debug, PartialEq, Eq)]
pub struct Field {
    pub allowed: RangeInclusive<u64>,
    pub reason: Reason,
}

/// The field of the number after these, which are the first of a file and
/// allowed themselves; nothing if they are the whole file.
pub fn field_after(numbers: &[u64]) -> Option<Field> {
    match *numbers {
        [] => Some(field(EDITION..=EDITION, Reason::Edition)),
        [_] => Some(field(Plant::COUNT, Reason::Counts)),
        [_, _] => Some(field(Segment::COUNT, Reason::Counts)),
        [_, _, _] => Some(field(Line::COUNT, Reason::Counts)),
        [_, plants, segments, lines, ..] => {
            field_of_records(&numbers[HEADER_NUMBERS..], [plants, segments, lines])
        }
    }
}

/// The fields of all numbers of a whole file.
pub fn fields_of(numbers: &[u64]) -> Vec<Field> {
    (0..numbers.len())
        .filter_map(|place| field_after(&numbers[..place]))
        .collect()
}

fn field(allowed: RangeInclusive<u64>, reason: Reason) -> Field {
    Field { allowed, reason }
}

/// The field after the first numbers of the records, with the counts of the header.
fn field_of_records(read: &[u64], counts: [u64; 3]) -> Option<Field> {
    let [plants, segments, _] = counts;
    let place = RecordPlace::after(read.len(), counts)?;
    let record = &read[read.len() - place.at..];
    Some(match place.kind {
        RecordKind::Plant => field(allowed_in_plant(record, segments), Reason::PlantField),
        RecordKind::Segment => {
            let own = place.record as u64;
            let allowed = allowed_in_segment(record, own, segments);
            field(allowed, Reason::SegmentField)
        }
        RecordKind::Line => {
            let allowed = allowed_in_line(record, plants, segments);
            field(allowed, Reason::LineField)
        }
    })
}

/// What the next number of a plant record may be, after those of it that were read.
fn allowed_in_plant(record: &[u64], segments: u64) -> RangeInclusive<u64> {
    match *record {
        [] => ANY_NUMBER,
        [_] => 1..=segments,
        _ => 0..=Plant::WHOLE_FRACTION,
    }
}

/// What the next number of a segment record may be, after those of it that were read.
fn allowed_in_segment(record: &[u64], own: u64, segments: u64) -> RangeInclusive<u64> {
    match *record {
        [] => Segment::KINDS,
        [_] => ANY_NUMBER,
        [Segment::STORE, ..] => 0..=0,
        _ => own + 1..=segments,
    }
}

/// What the next number of a line record may be, after those of it that were read.
fn allowed_in_line(record: &[u64], plants: u64, segments: u64) -> RangeInclusive<u64> {
    match *record {
        [] => Owner::KINDS,
        [Owner::PLANT] => 1..=plants,
        [_] => 1..=segments,
        [kind, _] => classes_of(kind),
        [_, _, _] => ANY_NUMBER,
        [_, _, class, ..] => factors_of(class),
    }
}

#[cfg(test)]
mod tests {
    use super::*;
    use crate::periods::paper::WHOLE_PERIOD;

    #[test]
    fn fields_of_the_whole_period() {
        use Reason::{Counts, Edition, LineField, PlantField, SegmentField};
        let expected = [
            (1..=1, Edition),
            (1..=16, Counts),
            (1..=32, Counts),
            (0..=512, Counts),
            (0..=4_000_000_000, PlantField),
            (1..=2, PlantField),
            (0..=1_000_000, PlantField),
            (0..=4_000_000_000, PlantField),
            (1..=2, PlantField),
            (0..=1_000_000, PlantField),
            (1..=6, SegmentField),
            (0..=4_000_000_000, SegmentField),
            (2..=2, SegmentField),
            (1..=6, SegmentField),
            (0..=4_000_000_000, SegmentField),
            (0..=0, SegmentField),
            (0..=1, LineField),
            (1..=2, LineField),
            (1..=9, LineField),
            (0..=4_000_000_000, LineField),
            (0..=1_000_000_000, LineField),
            (0..=1, LineField),
            (1..=2, LineField),
            (3..=7, LineField),
            (0..=4_000_000_000, LineField),
            (0..=1_000_000_000, LineField),
        ];
        let expected = expected.map(|(allowed, reason)| field(allowed, reason));
        assert_eq!(fields_of(&WHOLE_PERIOD), expected);
        assert_eq!(field_after(&WHOLE_PERIOD), None);
    }

    #[test]
    fn factor_of_captured_fossil_is_one_kg() {
        let mut numbers = WHOLE_PERIOD[..20].to_vec();
        numbers[18] = 9;
        assert_eq!(
            field_after(&numbers),
            Some(field(1000..=1000, Reason::LineField))
        );
    }

    #[test]
    fn last_segment_of_another_kind_has_no_next() {
        let mut numbers = WHOLE_PERIOD[..15].to_vec();
        numbers[13] = 5;
        let next = field_after(&numbers).expect("the next segment is still to come");
        assert!(next.allowed.is_empty());
    }
}
