//! Where the numbers behind the header are: in which record, and where in it.

use super::records::{Line, Plant, Segment};

/// The kinds of records.
#[derive(Clone, Copy, Debug, PartialEq, Eq)]
pub enum RecordKind {
    Plant,
    Segment,
    Line,
}

/// The kinds in file order, each with the numbers of a record.
const IN_FILE_ORDER: [(RecordKind, usize); 3] = [
    (RecordKind::Plant, Plant::NUMBERS),
    (RecordKind::Segment, Segment::NUMBERS),
    (RecordKind::Line, Line::NUMBERS),
];

/// Where a number is in the records.
#[derive(Clone, Copy, Debug, PartialEq, Eq)]
pub struct RecordPlace {
    pub kind: RecordKind,
    /// The number of the record among those of its kind, from 1.
    pub record: usize,
    /// The place of the number in its record, from 0.
    pub at: usize,
}

impl RecordPlace {
    /// Where the number is that comes after the first `numbers` behind the header; nothing if these
    /// are all that the counts of plants, segments and lines announce.
    pub fn after(numbers: usize, counts: [u64; 3]) -> Option<Self> {
        let mut place = numbers;
        for ((kind, numbers_of_record), count) in IN_FILE_ORDER.into_iter().zip(counts) {
            let numbers_of_kind = count as usize * numbers_of_record;
            if place < numbers_of_kind {
                return Some(RecordPlace {
                    kind,
                    record: place / numbers_of_record + 1,
                    at: place % numbers_of_record,
                });
            }
            place -= numbers_of_kind;
        }
        None
    }
}

#[cfg(test)]
mod tests {
    use super::*;

    fn place(kind: RecordKind, record: usize, at: usize) -> Option<RecordPlace> {
        Some(RecordPlace { kind, record, at })
    }

    #[test]
    fn records_stand_in_file_order() {
        use RecordKind::{Line, Plant, Segment};
        let after = |numbers| RecordPlace::after(numbers, [2, 1, 2]);
        assert_eq!(after(0), place(Plant, 1, 0));
        assert_eq!(after(2), place(Plant, 1, 2));
        assert_eq!(after(3), place(Plant, 2, 0));
        assert_eq!(after(6), place(Segment, 1, 0));
        assert_eq!(after(8), place(Segment, 1, 2));
        assert_eq!(after(9), place(Line, 1, 0));
        assert_eq!(after(13), place(Line, 1, 4));
        assert_eq!(after(18), place(Line, 2, 4));
        assert_eq!(after(19), None);
        assert_eq!(after(1000), None);
    }

    #[test]
    fn kinds_without_records_are_passed_over() {
        assert_eq!(
            RecordPlace::after(5, [1, 1, 0]).map(|place| place.at),
            Some(2)
        );
        assert_eq!(RecordPlace::after(6, [1, 1, 0]), None);
    }
}
