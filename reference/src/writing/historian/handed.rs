//! What a call hands back to the historian: the refusal, the count of bytes written and the place,
//! then all bytes of the buffer.

use crate::frames::split;
use crate::lent_bytes::{first_difference, Pattern};
use crate::questions::Answer;
use crate::refusal::{Placed, Reason};
use crate::writing::form::Form;
use crate::writing::list::write_list;
use std::fmt;

/// What the buffer is before the call.
const BUFFER_PATTERN: Pattern = Pattern {
    first: 60,
    step: 23,
};
/// The refusal that is answered for an accepted list, its place, and the bytes that a refusal
/// writes.
const ACCEPTED: u32 = 0;
const NO_PLACE: u64 = 0;
const NOTHING_WRITTEN: u64 = 0;

/// What a call hands back.
#[derive(Debug, PartialEq, Eq)]
pub struct Handed {
    refusal: u32,
    written: u64,
    place: u64,
    buffer: Vec<u8>,
}

impl Handed {
    /// What the call with this list and a buffer of this length must hand back. The room is tested
    /// last.
    pub fn by(numbers: &[u64], length: usize) -> Self {
        let file = write_list(numbers, Form::Period).and_then(|file| {
            if file.len() > length {
                return Err(Reason::BUFFER_SHORT.at(file.len()));
            }
            Ok(file)
        });
        let buffer = BUFFER_PATTERN.bytes(length);
        match file {
            Ok(file) => Handed::accepted(&file, buffer),
            Err(placed) => Handed::refused(placed, buffer),
        }
    }

    fn accepted(file: &[u8], mut buffer: Vec<u8>) -> Self {
        buffer[..file.len()].copy_from_slice(file);
        Handed {
            refusal: ACCEPTED,
            written: file.len() as u64,
            place: NO_PLACE,
            buffer,
        }
    }

    fn refused(placed: Placed, buffer: Vec<u8>) -> Self {
        Handed {
            refusal: placed.reason as u32,
            written: NOTHING_WRITTEN,
            place: placed.place as u64,
            buffer,
        }
    }

    /// What came for this answer, taken apart; nothing if it is cut short.
    fn taken_apart(&self, came: &[u8]) -> Option<Handed> {
        let (refusal, rest) = split(came, self.refusal.to_le_bytes().len())?;
        let (written, rest) = split(rest, self.written.to_le_bytes().len())?;
        let (place, rest) = split(rest, self.place.to_le_bytes().len())?;
        let (buffer, _) = split(rest, self.buffer.len())?;
        Some(Handed {
            refusal: u32::from_le_bytes(refusal.try_into().ok()?),
            written: u64::from_le_bytes(written.try_into().ok()?),
            place: u64::from_le_bytes(place.try_into().ok()?),
            buffer: buffer.to_vec(),
        })
    }

    /// What came beside this answer, each part that differs in words.
    fn differences(&self, came: &Handed) -> String {
        let numbers = |handed: &Handed| (handed.refusal, handed.written, handed.place);
        let answer =
            (numbers(self) != numbers(came)).then(|| format!("expected {self}, came {came}"));
        let buffer = first_difference("buffer", &self.buffer, &came.buffer);
        let differences: Vec<String> = [answer, buffer].into_iter().flatten().collect();
        differences.join("; ")
    }
}

impl fmt::Display for Handed {
    fn fmt(&self, out: &mut fmt::Formatter) -> fmt::Result {
        let Handed {
            refusal,
            written,
            place,
            ..
        } = self;
        write!(out, "refusal {refusal}, {written} bytes and place {place}")
    }
}

impl Answer for Handed {
    fn label(&self) -> String {
        match self.refusal {
            ACCEPTED => "A".to_string(),
            number => format!("R{number}"),
        }
    }

    fn bytes(&self) -> Vec<u8> {
        let mut bytes = self.refusal.to_le_bytes().to_vec();
        bytes.extend(self.written.to_le_bytes());
        bytes.extend(self.place.to_le_bytes());
        bytes.extend(&self.buffer);
        bytes
    }

    fn length_in(&self, output: &[u8]) -> usize {
        self.bytes().len().min(output.len())
    }

    fn difference(&self, came: &[u8]) -> String {
        match (self.taken_apart(came), came.len()) {
            (Some(came), _) => self.differences(&came),
            (None, 0) => format!("expected {self}, came no answer"),
            (None, length) => {
                let expected = self.bytes().len();
                format!("expected {self}, came only {length} of {expected} bytes")
            }
        }
    }
}

#[cfg(test)]
mod tests {
    use super::*;
    use crate::periods::paper::{whole_period, WHOLE_PERIOD};

    /// One plant without export and one store.
    const SMALLEST: [u64; 10] = [1, 1, 1, 0, 0, 1, 0, 6, 0, 0];

    #[test]
    fn buffer_before_the_call_is_that_of_the_test_program() {
        let by_formula: Vec<u8> = (0..600).map(|i| ((23 * i + 60) % 256) as u8).collect();
        assert_eq!(BUFFER_PATTERN.bytes(600), by_formula);
    }

    #[test]
    fn accepted_list_is_written_and_what_is_behind_it_stays() {
        let handed = Handed::by(&SMALLEST, 12);
        let expected = [
            &[0, 0, 0, 0][..],
            &[10, 0, 0, 0, 0, 0, 0, 0],
            &[0, 0, 0, 0, 0, 0, 0, 0],
            &[1, 1, 1, 0, 0, 1, 0, 6, 0, 0],
            &BUFFER_PATTERN.bytes(12)[10..],
        ];
        assert_eq!(handed.bytes(), expected.concat());
        assert_eq!(handed.label(), "A");
        let whole = Handed::by(&WHOLE_PERIOD, 37);
        assert_eq!(whole.buffer, whole_period());
    }

    #[test]
    fn refused_list_leaves_the_buffer() {
        for (numbers, length, answer) in [
            (&SMALLEST[..], 9, "refusal 14, 0 bytes and place 10"),
            (&SMALLEST[..], 0, "refusal 14, 0 bytes and place 10"),
            (&SMALLEST[..9], 0, "refusal 1, 0 bytes and place 9"),
            (&[u64::MAX], 9, "refusal 3, 0 bytes and place 0"),
        ] {
            let handed = Handed::by(numbers, length);
            assert_eq!(handed.to_string(), answer);
            assert_eq!(handed.buffer, BUFFER_PATTERN.bytes(length));
        }
    }

    #[test]
    fn differences_name_what_differs() {
        let handed = Handed::by(&[2], 2);
        let mut came = handed.bytes();
        came[4] = 1;
        came[21] = 0;
        assert_eq!(
            handed.difference(&came),
            "expected refusal 4, 0 bytes and place 0, came refusal 4, 1 bytes and place 0; \
             buffer first differs at byte 1: expected 53, came 00"
        );
        assert_eq!(
            handed.difference(&came[..21]),
            "expected refusal 4, 0 bytes and place 0, came only 21 of 22 bytes"
        );
        assert_eq!(
            handed.difference(&[]),
            "expected refusal 4, 0 bytes and place 0, came no answer"
        );
        assert_eq!(handed.length_in(&[0; 30]), 22);
        assert_eq!(handed.length_in(&[0; 3]), 3);
        assert_eq!(handed.label(), "R4");
    }
}
