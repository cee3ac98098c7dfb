//! What every call from C answers first: the refusal, 4 bytes, its place, 8 bytes, and its offset,
//! 8 bytes, all least significant first.

use crate::frames::split;
use crate::refusal::Refused;
use std::fmt;

/// The refusal, the place and the offset that are answered for an accepted file.
const ACCEPTED: u32 = 0;
const NO_PLACE: u64 = 0;
const NO_OFFSET: u64 = 0;

/// The number of the refusal, the place and the offset, as they are answered.
#[derive(Clone, Copy, Debug, PartialEq, Eq)]
pub struct Verdict {
    refusal: u32,
    place: u64,
    offset: u64,
}

impl Verdict {
    /// The verdict that goes with an answer.
    pub fn of<T>(answered: &Result<T, Refused>) -> Self {
        match answered {
            Ok(_) => Verdict {
                refusal: ACCEPTED,
                place: NO_PLACE,
                offset: NO_OFFSET,
            },
            Err(refused) => Verdict {
                refusal: refused.reason as u32,
                place: refused.place as u64,
                offset: refused.offset,
            },
        }
    }

    /// The verdict at the start of the bytes, and what follows it; nothing if it is cut short.
    pub fn first_in(bytes: &[u8]) -> Option<(Self, &[u8])> {
        let (refusal, rest) = split(bytes, ACCEPTED.to_le_bytes().len())?;
        let (place, rest) = split(rest, NO_PLACE.to_le_bytes().len())?;
        let (offset, rest) = split(rest, NO_OFFSET.to_le_bytes().len())?;
        let verdict = Verdict {
            refusal: u32::from_le_bytes(refusal.try_into().ok()?),
            place: u64::from_le_bytes(place.try_into().ok()?),
            offset: u64::from_le_bytes(offset.try_into().ok()?),
        };
        Some((verdict, rest))
    }

    /// The bytes with which the verdict is answered.
    pub fn bytes(self) -> Vec<u8> {
        let mut bytes = self.refusal.to_le_bytes().to_vec();
        bytes.extend(self.place.to_le_bytes());
        bytes.extend(self.offset.to_le_bytes());
        bytes
    }

    /// What an answer with this verdict is counted as.
    pub fn label(self) -> String {
        match self.refusal {
            ACCEPTED => "A".to_string(),
            number => format!("R{number}"),
        }
    }

    /// What came instead of this verdict, in words; nothing if it is the same.
    pub fn difference(self, came: Verdict) -> Option<String> {
        (self != came).then(|| format!("expected {self}, came {came}"))
    }

    /// What came of an answer with this verdict, in words, if not all of its bytes came.
    pub fn cut_short(self, came: usize, expected: usize) -> String {
        match came {
            0 => format!("expected {self}, came no answer"),
            _ => format!("expected {self}, came only {came} of {expected} bytes"),
        }
    }
}

impl fmt::Display for Verdict {
    fn fmt(&self, out: &mut fmt::Formatter) -> fmt::Result {
        let Verdict {
            refusal,
            place,
            offset,
        } = self;
        write!(out, "refusal {refusal}, place {place} and offset {offset}")
    }
}

#[cfg(test)]
mod tests {
    use super::*;
    use crate::refusal::Reason;

    fn refused(reason: Reason, place: usize, offset: u64) -> Verdict {
        Verdict::of::<()>(&Err(reason.at(place).with_offset(offset)))
    }

    #[test]
    fn verdict_has_twenty_bytes() {
        let verdict = refused(Reason::BytesAfter, 0x0102, 0x0304_0506);
        let expected = [
            &[9, 0, 0, 0][..],
            &[2, 1, 0, 0, 0, 0, 0, 0],
            &[6, 5, 4, 3, 0, 0, 0, 0],
        ];
        assert_eq!(verdict.bytes(), expected.concat());
        assert_eq!(Verdict::of(&Ok(())).bytes(), [0; 20]);
    }

    #[test]
    fn written_verdict_reads_back() {
        let verdict = refused(Reason::EmissionWithoutInflow, 300, 7029);
        let bytes = [verdict.bytes(), vec![7, 8]].concat();
        assert_eq!(Verdict::first_in(&bytes), Some((verdict, &[7, 8][..])));
        for length in 0..20 {
            assert_eq!(Verdict::first_in(&bytes[..length]), None);
        }
    }

    #[test]
    fn label_names_the_refusal() {
        assert_eq!(refused(Reason::FileEnds, 7, 9).label(), "R1");
        assert_eq!(refused(Reason::SegmentTableShort, 5, 10).label(), "R15");
        assert_eq!(Verdict::of(&Ok(())).label(), "A");
    }

    #[test]
    fn words_name_refusal_place_and_offset() {
        let verdict = refused(Reason::FileEnds, 7, 9);
        assert_eq!(verdict.difference(verdict), None);
        assert_eq!(
            verdict.difference(Verdict::of(&Ok(()))).as_deref(),
            Some(
                "expected refusal 1, place 7 and offset 9, \
                 came refusal 0, place 0 and offset 0"
            )
        );
        assert_eq!(
            verdict.cut_short(19, 20),
            "expected refusal 1, place 7 and offset 9, came only 19 of 20 bytes"
        );
        assert_eq!(
            verdict.cut_short(0, 20),
            "expected refusal 1, place 7 and offset 9, came no answer"
        );
    }

    #[test]
    fn offset_alone_makes_a_difference() {
        let verdict = refused(Reason::FileEnds, 7, 9);
        let other = refused(Reason::FileEnds, 7, 8);
        assert_eq!(
            verdict.difference(other).as_deref(),
            Some(
                "expected refusal 1, place 7 and offset 9, \
                 came refusal 1, place 7 and offset 8"
            )
        );
    }
}
