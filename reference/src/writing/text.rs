//! The numbers of a text that a person types: digits, spaces between them, and remarks.

use crate::questions::spaced;
use std::iter;

/// The longest text that is looked at, in bytes.
pub const MOST_BYTES: usize = 131_071;

/// What a remark begins with.
const REMARK: u8 = b'#';
/// What a remark ends before.
const LINE_ENDS: [u8; 2] = [b'\r', b'\n'];
/// How many digits there are.
const BASE: u64 = 10;

/// A number of a text.
#[derive(Clone, Copy, Debug, PartialEq, Eq)]
pub struct TypedNumber {
    /// The value, or the largest of 64 bits if it is larger still: both are over the limit.
    pub value: u64,
    /// Where in the text its first digit is, counted in bytes from 0.
    pub offset: usize,
}

/// Why a text has no numbers.
#[derive(Clone, Copy, Debug, PartialEq, Eq)]
pub enum TextFault {
    /// It has more bytes than are looked at.
    TooLong,
    /// A byte is neither digit nor space nor part of a remark; it is the first such byte.
    OtherByte { offset: usize, byte: u8 },
}

/// The numbers of the text, or what is wrong with it. It is gone over run by run: a number, a
/// remark, or a space at a time.
pub fn numbers_in(text: &[u8]) -> Result<Vec<TypedNumber>, TextFault> {
    if text.len() > MOST_BYTES {
        return Err(TextFault::TooLong);
    }
    let mut numbers = Vec::new();
    let mut offset = 0;
    while offset < text.len() {
        let rest = &text[offset..];
        let run = match rest[0] {
            b'0'..=b'9' => {
                let digits = run_of(rest, |byte| byte.is_ascii_digit());
                let value = value_of(digits);
                numbers.push(TypedNumber { value, offset });
                digits
            }
            REMARK => run_of(rest, |byte| !LINE_ENDS.contains(&byte)),
            b' ' | b'\t' | b'\r' | b'\n' => &rest[..1],
            byte => return Err(TextFault::OtherByte { offset, byte }),
        };
        offset += run.len();
    }
    Ok(numbers)
}

/// The first bytes up to one that does not belong to the run.
fn run_of(bytes: &[u8], belongs: fn(u8) -> bool) -> &[u8] {
    let length = bytes.iter().take_while(|&&byte| belongs(byte)).count();
    &bytes[..length]
}

/// The value of these digits; it stays the largest of 64 bits if it gets that far.
fn value_of(digits: &[u8]) -> u64 {
    digits.iter().fold(0, |value: u64, digit| {
        let digit = u64::from(digit - b'0');
        value.saturating_mul(BASE).saturating_add(digit)
    })
}

/// The text of these numbers with single spaces between them.
pub fn text_of(numbers: &[u64]) -> Vec<u8> {
    spaced(numbers).into_bytes()
}

/// A text of this many bytes: the given one, and spaces behind it.
pub fn filled_up(text: &[u8], length: usize) -> Vec<u8> {
    let spaces = iter::repeat(b' ');
    text.iter().copied().chain(spaces).take(length).collect()
}

#[cfg(test)]
mod tests {
    use super::*;

    /// The values and offsets of the numbers in a text.
    fn typed(text: &[u8]) -> Vec<(u64, usize)> {
        let numbers = numbers_in(text).expect("the text has only numbers and remarks");
        numbers
            .iter()
            .map(|number| (number.value, number.offset))
            .collect()
    }

    fn other_byte(offset: usize, byte: u8) -> Result<Vec<TypedNumber>, TextFault> {
        Err(TextFault::OtherByte { offset, byte })
    }

    #[test]
    fn numbers_stand_between_spaces() {
        assert_eq!(typed(b""), []);
        assert_eq!(typed(b" \t\r\n"), []);
        assert_eq!(typed(b"12 345"), [(12, 0), (345, 3)]);
        assert_eq!(typed(b"\n\n12\t\r\n345\r6"), [(12, 2), (345, 7), (6, 11)]);
    }

    #[test]
    fn remark_goes_to_the_line_end() {
        assert_eq!(typed(b"12#x"), [(12, 0)]);
        assert_eq!(typed(b"12# 3 # 4\r5"), [(12, 0), (5, 10)]);
        assert_eq!(typed(b"#\n7"), [(7, 2)]);
        assert_eq!(typed(b"# \xFF\x00\xC3\xA4 1\n7"), [(7, 9)]);
        assert_eq!(typed(b"#"), []);
    }

    #[test]
    fn leading_zeros_and_many_digits_make_one_number() {
        assert_eq!(typed(b"0 00 007"), [(0, 0), (0, 2), (7, 5)]);
        assert_eq!(typed(&[b'0'; 5000]), [(0, 0)]);
        let largest = u64::MAX.to_string();
        assert_eq!(typed(largest.as_bytes()), [(u64::MAX, 0)]);
        assert_eq!(typed(b"18446744073709551616"), [(u64::MAX, 0)]);
        assert_eq!(typed(b"18446744073709551617 1"), [(u64::MAX, 0), (1, 21)]);
        assert_eq!(typed(&[b'9'; 5000]), [(u64::MAX, 0)]);
    }

    #[test]
    fn first_other_byte_is_at_fault() {
        assert_eq!(numbers_in(b"-1"), other_byte(0, b'-'));
        assert_eq!(numbers_in(b"12 3.4 x"), other_byte(4, b'.'));
        assert_eq!(numbers_in(b"\xEF\xBB\xBF1"), other_byte(0, 0xEF));
        assert_eq!(numbers_in(b"1 # x\n\x0B"), other_byte(6, 0x0B));
        assert_eq!(numbers_in(b"1\0"), other_byte(1, 0));
    }

    #[test]
    fn text_has_a_longest() {
        let longest = filled_up(b"7", MOST_BYTES);
        assert_eq!(typed(&longest), [(7, 0)]);
        let longer = filled_up(b"x", MOST_BYTES + 1);
        assert_eq!(numbers_in(&longer), Err(TextFault::TooLong));
    }

    #[test]
    fn text_of_numbers_reads_back() {
        let numbers = [0, 7, u64::MAX];
        let values = typed(&text_of(&numbers))
            .into_iter()
            .map(|(value, _)| value);
        assert_eq!(values.collect::<Vec<u64>>(), numbers);
    }
}
