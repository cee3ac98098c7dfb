//! Why a file is refused, and where: at which place, and at which byte.

use crate::numbers::number::Refusal;
use std::fmt;

/// The reasons, each with the paper's number.
#[derive(Clone, Copy, Debug, PartialEq, Eq)]
pub enum Reason {
    FileEnds = 1,
    NotShortest = 2,
    TooLarge = 3,
    Edition = 4,
    Counts = 5,
    PlantField = 6,
    SegmentField = 7,
    LineField = 8,
    BytesAfter = 9,
    GramTotal = 10,
    InflowTooLarge = 11,
    OutflowOverInflow = 12,
    EmissionWithoutInflow = 13,
    PlantTableShort = 14,
    SegmentTableShort = 15,
    CapturedAboveFuel = 16,
}

impl Reason {
    /// What 14 means to a writer, which is lent a buffer where an account is lent tables.
    pub const BUFFER_SHORT: Reason = Reason::PlantTableShort;

    /// This reason at a place.
    pub fn at(self, place: usize) -> Placed {
        Placed {
            reason: self,
            place,
        }
    }
}

impl From<Refusal> for Reason {
    fn from(refusal: Refusal) -> Self {
        match refusal {
            Refusal::FileEnds => Reason::FileEnds,
            Refusal::NotShortest => Reason::NotShortest,
            Refusal::TooLarge => Reason::TooLarge,
        }
    }
}

/// A reason and the place the paper asks for with it: all that can be said without the file.
#[derive(Clone, Copy, Debug, PartialEq, Eq)]
pub struct Placed {
    pub reason: Reason,
    pub place: usize,
}

impl Placed {
    /// The refusal of a file, with the byte of the file that belongs to it.
    pub fn with_offset(self, offset: u64) -> Refused {
        Refused {
            reason: self.reason,
            place: self.place,
            offset,
        }
    }
}

/// A refusal: its reason, its place, and its byte in the file, counted from 0.
#[derive(Clone, Copy, Debug, PartialEq, Eq)]
pub struct Refused {
    pub reason: Reason,
    pub place: usize,
    pub offset: u64,
}

impl fmt::Display for Refused {
    fn fmt(&self, out: &mut fmt::Formatter) -> fmt::Result {
        let Refused {
            reason,
            place,
            offset,
        } = *self;
        write!(out, "R {} {place} {offset}", reason as u8)
    }
}

/// What the tests of all files ask.
#[cfg(test)]
pub mod offsets_checked {
    use super::*;
    use crate::numbers::number::MORE_FOLLOW;

    /// Asserts that so many sound numbers, and nothing else, are before the byte: each of them has
    /// one byte that says that no other group follows, which is its last.
    pub fn assert_behind_numbers(file: &[u8], offset: u64, numbers: usize) {
        let ends_number = |byte: &&u8| **byte < MORE_FOLLOW;
        let before = &file[..offset as usize];
        assert_eq!(before.iter().filter(ends_number).count(), numbers);
        assert!(before.last().iter().all(ends_number));
    }

    /// Asserts that a refusal of reading has the byte that goes with its place, and that the file
    /// is not at its end there unless that is the reason.
    pub fn assert_offset_of_number(file: &[u8], refused: &Refused) {
        assert_behind_numbers(file, refused.offset, refused.place);
        let at_end = refused.offset == file.len() as u64;
        assert!(!at_end || refused.reason == Reason::FileEnds);
    }
}

#[cfg(test)]
mod tests {
    use super::*;

    #[test]
    fn refusal_is_shown_as_number_place_and_offset() {
        let shown = |reason: Reason, place, offset| {
            let refused = reason.at(place).with_offset(offset);
            refused.to_string()
        };
        assert_eq!(shown(Reason::FileEnds, 0, 0), "R 1 0 0");
        assert_eq!(shown(Reason::PlantField, 5, 9), "R 6 5 9");
        assert_eq!(shown(Reason::SegmentTableShort, 160, 7029), "R 15 160 7029");
    }

    #[test]
    fn numbers_of_number_reading_stay() {
        for refusal in [Refusal::FileEnds, Refusal::NotShortest, Refusal::TooLarge] {
            assert_eq!(Reason::from(refusal) as u8, refusal.number());
        }
    }
}
