//! The historian's call that writes a period file, put as the lengths of list and buffer, then the
//! list.

use super::handed::Handed;
use crate::frames::{first_bytes, first_length, write_length, FrameFault};
use crate::numbers::writing::write_numbers;
use crate::periods::historian::table_bytes::NUMBER_BYTES;
use crate::questions::{spaced, Question};

/// One question: what does the call with this list and such a buffer leave?
#[derive(Clone, Debug, PartialEq, Eq)]
pub struct WriteCall {
    /// The bytes of the list, eight to a number; spare ones may follow.
    pub list: Vec<u8>,
    /// The bytes of the buffer.
    pub buffer: usize,
}

impl WriteCall {
    /// The call with the list of these numbers, without spare bytes, and a buffer of this length.
    pub fn of(numbers: &[u64], buffer: usize) -> Self {
        let list = numbers.iter().flat_map(|number| number.to_le_bytes());
        WriteCall {
            list: list.collect(),
            buffer,
        }
    }

    /// The call with a buffer just long enough for these numbers, if they are accepted.
    pub fn just_enough(numbers: &[u64]) -> Self {
        WriteCall::of(numbers, bytes_of(numbers))
    }

    /// The calls with a buffer just long enough and with an empty one: it must not matter if the
    /// list is refused.
    pub fn with_room_and_without(numbers: &[u64]) -> [Self; 2] {
        [WriteCall::just_enough(numbers), WriteCall::of(numbers, 0)]
    }

    /// The same call with spare bytes behind the list, fewer than a number has.
    pub fn with_spare(mut self, spare: &[u8]) -> Self {
        self.list.extend(spare);
        self
    }

    /// The numbers of the list; spare bytes are none.
    pub fn numbers(&self) -> Vec<u64> {
        let numbers = self.list.chunks_exact(NUMBER_BYTES);
        numbers
            .map(|bytes| u64::from_le_bytes(bytes.try_into().expect("so many bytes have a number")))
            .collect()
    }
}

/// How many bytes a file of these numbers has.
pub fn bytes_of(numbers: &[u64]) -> usize {
    write_numbers(numbers).len()
}

impl Question for WriteCall {
    type Answer = Handed;

    const LABELS: &'static [&'static str] =
        &["A", "R1", "R3", "R4", "R5", "R6", "R7", "R8", "R9", "R14"];

    fn write_frame(&self, frames: &mut Vec<u8>) {
        write_length(self.list.len(), frames);
        write_length(self.buffer, frames);
        frames.extend(&self.list);
    }

    fn first_frame(input: &[u8]) -> Result<(Self, &[u8]), FrameFault> {
        let (list, rest) = first_length(input)?;
        let (buffer, rest) = first_length(rest)?;
        let (list, rest) = first_bytes(rest, list)?;
        let list = list.to_vec();
        Ok((WriteCall { list, buffer }, rest))
    }

    fn answer(&self) -> Handed {
        Handed::by(&self.numbers(), self.buffer)
    }

    fn in_words(&self) -> String {
        format!(
            "numbers [{}] in {} bytes, buffer of {} bytes",
            spaced(&self.numbers()),
            self.list.len(),
            self.buffer
        )
    }
}

#[cfg(test)]
mod tests {
    use super::*;

    #[test]
    fn list_has_eight_bytes_a_number_and_spare_ones() {
        let call = WriteCall::of(&[1, 300], 5).with_spare(&[7, 8]);
        let list = [
            &[1, 0, 0, 0, 0, 0, 0, 0][..],
            &[44, 1, 0, 0, 0, 0, 0, 0],
            &[7, 8],
        ];
        assert_eq!(call.list, list.concat());
        assert_eq!(call.numbers(), [1, 300]);
        assert_eq!(call.buffer, 5);
        assert_eq!(
            call.in_words(),
            "numbers [1 300] in 18 bytes, buffer of 5 bytes"
        );
    }

    #[test]
    fn just_enough_is_the_length_of_the_file() {
        assert_eq!(WriteCall::just_enough(&[1, 300]).buffer, 3);
        assert_eq!(WriteCall::just_enough(&[]).buffer, 0);
    }
}
