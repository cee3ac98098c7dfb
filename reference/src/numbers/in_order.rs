//! The numbers of a file from its front to its end, each with its place and its first byte:
//! refusals 1, 2, 3 and 9.

use super::number::{read_number, Reading};
use crate::refusal::{Reason, Refused};
use std::ops::RangeInclusive;

/// A file and those of its numbers that were read so far.
pub struct NumbersInOrder<'a> {
    file: &'a [u8],
    next_byte: u64,
    numbers: Vec<u64>,
    /// The first byte of each of them.
    offsets: Vec<u64>,
}

impl<'a> NumbersInOrder<'a> {
    /// The file with none of its numbers read yet.
    pub fn of(file: &'a [u8]) -> Self {
        NumbersInOrder {
            file,
            next_byte: 0,
            numbers: Vec::new(),
            offsets: Vec::new(),
        }
    }

    /// The numbers that were read so far.
    pub fn numbers(&self) -> &[u64] {
        &self.numbers
    }

    /// The first byte of the number at this place, which must have been read.
    pub fn offset_of(&self, place: usize) -> u64 {
        self.offsets[place]
    }

    /// Reads the next number.
    pub fn read(&mut self) -> Result<u64, Refused> {
        let place = self.numbers.len();
        match read_number(self.file, self.next_byte) {
            Reading::Refused { refusal, offset } => {
                Err(Reason::from(refusal).at(place).with_offset(offset))
            }
            Reading::Number {
                value,
                offset,
                next,
            } => {
                self.numbers.push(value);
                self.offsets.push(offset);
                self.next_byte = next;
                Ok(value)
            }
        }
    }

    /// Reads the next number, which is refused for the reason unless it is one of these.
    pub fn read_within(
        &mut self,
        allowed: &RangeInclusive<u64>,
        reason: Reason,
    ) -> Result<u64, Refused> {
        let place = self.numbers.len();
        let value = self.read()?;
        if !allowed.contains(&value) {
            return Err(reason.at(place).with_offset(self.offset_of(place)));
        }
        Ok(value)
    }

    /// Tests that the file ends here.
    pub fn end(&self) -> Result<(), Refused> {
        if self.next_byte < self.file.len() as u64 {
            let place = self.numbers.len();
            return Err(Reason::BytesAfter.at(place).with_offset(self.next_byte));
        }
        Ok(())
    }
}

#[cfg(test)]
mod tests {
    use super::*;

    fn refused(reason: Reason, place: usize, offset: u64) -> Refused {
        reason.at(place).with_offset(offset)
    }

    #[test]
    fn numbers_come_one_after_the_other() {
        let mut numbers = NumbersInOrder::of(&[0x07, 0xAC, 0x02, 0x05]);
        assert_eq!(numbers.end(), Err(refused(Reason::BytesAfter, 0, 0)));
        assert_eq!(numbers.read(), Ok(7));
        assert_eq!(numbers.end(), Err(refused(Reason::BytesAfter, 1, 1)));
        assert_eq!(numbers.read(), Ok(300));
        assert_eq!(numbers.end(), Err(refused(Reason::BytesAfter, 2, 3)));
        assert_eq!(numbers.read(), Ok(5));
        assert_eq!(numbers.numbers(), [7, 300, 5]);
        assert_eq!([0, 1, 2].map(|place| numbers.offset_of(place)), [0, 1, 3]);
        assert_eq!(numbers.end(), Ok(()));
        assert_eq!(numbers.read(), Err(refused(Reason::FileEnds, 3, 4)));
    }

    #[test]
    fn number_that_is_not_allowed_is_refused_at_its_place() {
        let read = |allowed| {
            let mut numbers = NumbersInOrder::of(&[0xAC, 0x02, 0x05]);
            numbers.read().expect("the first number is sound");
            numbers.read_within(&allowed, Reason::Counts)
        };
        assert_eq!(read(5..=5), Ok(5));
        assert_eq!(read(1..=4), Err(refused(Reason::Counts, 1, 2)));
        assert_eq!(read(6..=9), Err(refused(Reason::Counts, 1, 2)));
    }

    #[test]
    fn faults_are_placed_by_the_number_and_have_its_first_byte() {
        for (fault, reason) in [
            (&[][..], Reason::FileEnds),
            (&[0x80], Reason::FileEnds),
            (&[0x80, 0x00], Reason::NotShortest),
            (&[0x80; 5], Reason::TooLarge),
        ] {
            let file = [&[0xAC, 0x02], fault].concat();
            let mut numbers = NumbersInOrder::of(&file);
            assert_eq!(numbers.read(), Ok(300));
            assert_eq!(numbers.read(), Err(refused(reason, 1, 2)));
        }
    }
}
