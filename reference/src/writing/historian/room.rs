//! Buffers of every length beside the one that is needed, lists with numbers left over, and lists
//! with spare bytes.

use super::call::{bytes_of, WriteCall};
use crate::numbers::number::LIMIT;
use crate::numbers::writing::with_values;
use crate::periods::fields::fields_of;
use crate::periods::historian::table_bytes::NUMBER_BYTES;
use crate::periods::paper::WHOLE_PERIOD;
use crate::periods::records::{Line, ANY_NUMBER};
use crate::periods::suites::whole_files::{small_and_middle, EVERY_CLASS};

/// How many bytes past its need the buffer of the whole period gets at most.
const BYTES_PAST_NEED: usize = 20;
/// How many bytes past its need a buffer gets that is far larger.
const MANY_BYTES_PAST_NEED: usize = 300;

/// The whole period with every length of the buffer, and other lists with some.
pub fn every_length() -> Vec<WriteCall> {
    let lengths = 0..=bytes_of(&WHOLE_PERIOD) + BYTES_PAST_NEED;
    let mut calls: Vec<WriteCall> = lengths
        .map(|length| WriteCall::of(&WHOLE_PERIOD, length))
        .collect();
    for numbers in small_and_middle() {
        calls.extend(lengths_around(numbers));
    }
    calls
}

/// The list with buffers that are empty, too short by little, just long enough, and longer.
pub fn lengths_around(numbers: &[u64]) -> Vec<WriteCall> {
    let needed = bytes_of(numbers);
    let lengths = [
        0,
        1,
        needed / 2,
        needed - 1,
        needed,
        needed + 1,
        needed + 9,
        needed + MANY_BYTES_PAST_NEED,
    ];
    let call_with = |length| WriteCall::of(numbers, length);
    lengths.into_iter().map(call_with).collect()
}

/// What may be left over behind a period.
const LEFT_OVER: [u64; 6] = [0, 1, 128, LIMIT, LIMIT + 1, u64::MAX];
/// The most numbers that are left over.
const MOST_LEFT_OVER: usize = 3;

/// Whole lists with one to three numbers left over, and followed by themselves.
pub fn left_over() -> Vec<WriteCall> {
    let mut calls = Vec::new();
    for numbers in small_and_middle() {
        for count in 1..=MOST_LEFT_OVER {
            for value in LEFT_OVER {
                let list = [numbers, &vec![value; count][..]].concat();
                calls.extend(WriteCall::with_room_and_without(&list));
            }
        }
        let twice = [numbers, numbers].concat();
        calls.extend(WriteCall::with_room_and_without(&twice));
    }
    calls
}

/// The bytes of which spare ones are.
const SPARE_BYTES: [u8; 3] = [0, 1, u8::MAX];

/// Whole lists, cut ones and longer ones, each with spare bytes, which are no number.
pub fn spare_bytes() -> Vec<WriteCall> {
    let mut calls = Vec::new();
    for numbers in small_and_middle() {
        let longer = [numbers, &[0]].concat();
        let shorter = &numbers[..numbers.len() - 1];
        for list in [numbers, &longer, shorter, &numbers[..1], &[]] {
            for spare in 1..NUMBER_BYTES {
                calls.extend(SPARE_BYTES.map(|byte| {
                    let spare = vec![byte; spare];
                    WriteCall::just_enough(list).with_spare(&spare)
                }));
            }
        }
    }
    calls
}

/// Values on both sides of each number of groups, and of the limit.
const AT_GROUPS: [u64; 14] = [
    0,
    1,
    127,
    128,
    16_383,
    16_384,
    2_097_151,
    2_097_152,
    268_435_455,
    268_435_456,
    LIMIT - 1,
    LIMIT,
    LIMIT + 1,
    1 << 35,
];

/// Every amount and every factor with numbers of every count of groups, in a buffer just long
/// enough and in one that is a byte short.
pub fn amounts_of_every_length() -> Vec<WriteCall> {
    let fields = fields_of(&EVERY_CLASS);
    let of_amount = |place: &usize| [ANY_NUMBER, Line::FACTORS].contains(&fields[*place].allowed);
    let mut calls = Vec::new();
    for place in (0..EVERY_CLASS.len()).filter(of_amount) {
        for value in AT_GROUPS {
            let list = with_values(&EVERY_CLASS, &[(place, value)]);
            let needed = bytes_of(&list);
            calls.extend([needed, needed - 1].map(|length| WriteCall::of(&list, length)));
        }
    }
    calls
}

#[cfg(test)]
mod tests {
    use super::*;
    use crate::compare::tally::Tally;
    use crate::questions::{Answer, Question};

    #[test]
    fn whole_period_has_every_length_of_the_buffer() {
        let calls = every_length();
        let tally = Tally::of(&calls[..=37 + 20]);
        assert_eq!(tally.count("R14"), 37);
        assert_eq!(tally.count("A"), 21);
        assert_eq!(Tally::of(&calls).count("A"), 21 + 5 * 4);
    }

    #[test]
    fn left_over_numbers_are_all_refused() {
        let calls = left_over();
        assert_eq!(Tally::of(&calls).count("R9"), calls.len());
    }

    #[test]
    fn spare_bytes_change_no_answer() {
        for call in spare_bytes() {
            let without = WriteCall::of(&call.numbers(), call.buffer);
            assert_eq!(call.answer().bytes(), without.answer().bytes());
        }
        let tally = Tally::of(&spare_bytes());
        for label in ["A", "R1", "R9"] {
            assert!(tally.count(label) >= 5 * 21, "{tally}");
        }
    }

    #[test]
    fn amounts_need_a_byte_for_each_group() {
        let tally = Tally::of(&amounts_of_every_length());
        assert_eq!(tally.count("A"), tally.count("R14"));
        assert!(tally.count("A") > 200, "{tally}");
        assert!(tally.count("R3") > 50, "{tally}");
    }
}
