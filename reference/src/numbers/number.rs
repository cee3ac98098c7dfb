//! Numbers as they are in a file: groups of seven bits, lowest first, one in a byte.

/// Bits of the value that one group holds.
pub const GROUP_BITS: usize = 7;
/// The bits of a byte that are its group.
const GROUP_MASK: u8 = 0x7F;
/// The bit of a byte that is set if another group follows.
pub const MORE_FOLLOW: u8 = 0x80;
/// The most groups a number may have.
pub const MOST_GROUPS: usize = 5;
/// The largest value a number may have.
pub const LIMIT: u64 = 4_000_000_000;

/// What is at a byte of a file. The offset is the first byte of the number; if the file has no
/// byte of it, the length of the file.
#[derive(Clone, Copy, Debug, PartialEq, Eq)]
pub enum Reading {
    /// A number: its value, its offset, and the byte just past its last.
    Number { value: u64, offset: u64, next: u64 },
    /// No number: why, and its offset.
    Refused { refusal: Refusal, offset: u64 },
}

/// Why no number can be read at a byte.
#[derive(Clone, Copy, Debug, PartialEq, Eq)]
pub enum Refusal {
    /// The file has no byte where a group is needed.
    FileEnds,
    /// A number of several groups ends in a zero group.
    NotShortest,
    /// Too many groups, or a value above the limit.
    TooLarge,
}

impl Refusal {
    /// The paper's number of this refusal.
    pub fn number(self) -> u8 {
        match self {
            Refusal::FileEnds => 1,
            Refusal::NotShortest => 2,
            Refusal::TooLarge => 3,
        }
    }
}

/// Reads the number at this byte of the file. Any byte may be asked, also one past the end.
pub fn read_number(file: &[u8], asked: u64) -> Reading {
    let offset = asked.min(file.len() as u64);
    match first_number(&file[offset as usize..]) {
        Ok((value, groups)) => Reading::Number {
            value,
            offset,
            next: offset + groups as u64,
        },
        Err(refusal) => Reading::Refused { refusal, offset },
    }
}

/// The value of the number that these bytes start with, and how many groups it has. It is read
/// byte by byte, so that the first fault met is the one answered.
fn first_number(bytes: &[u8]) -> Result<(u64, usize), Refusal> {
    let mut value = 0;
    for (index, &byte) in bytes.iter().enumerate() {
        let group = byte & GROUP_MASK;
        value += u64::from(group) << (GROUP_BITS * index);

        let groups = index + 1;
        let more_follow = byte & MORE_FOLLOW != 0;
        if more_follow && groups == MOST_GROUPS {
            return Err(Refusal::TooLarge);
        }
        if more_follow {
            continue;
        }
        if groups > 1 && group == 0 {
            return Err(Refusal::NotShortest);
        }
        if value > LIMIT {
            return Err(Refusal::TooLarge);
        }
        return Ok((value, groups));
    }
    Err(Refusal::FileEnds)
}

/// Those of the bytes that belong to the number they start with, be it sound or not: all up to a
/// group that no other follows, but no more than a number may have.
pub fn bytes_of_number(bytes: &[u8]) -> &[u8] {
    let most = &bytes[..bytes.len().min(MOST_GROUPS)];
    let last = most.iter().position(|byte| byte & MORE_FOLLOW == 0);
    last.map_or(most, |last| &most[..=last])
}

/// Writes a value in its shortest form. Values above the limit are written
/// too, since the cases need numbers that must be refused.
pub fn write_number(value: u64) -> Vec<u8> {
    let mut bytes = Vec::new();
    let mut rest = value;
    loop {
        let group = lowest_group(rest);
        rest >>= GROUP_BITS;
        if rest == 0 {
            bytes.push(group);
            return bytes;
        }
        bytes.push(group | MORE_FOLLOW);
    }
}

/// The same value in more groups than it needs, the added ones zero.
pub fn padded(shortest: &[u8], groups: usize) -> Vec<u8> {
    let mut bytes = shortest.to_vec();
    bytes.resize(groups, 0);
    for byte in &mut bytes[..groups - 1] {
        *byte |= MORE_FOLLOW;
    }
    bytes
}

/// The lowest seven bits of a value.
fn lowest_group(value: u64) -> u8 {
    value.to_le_bytes()[0] & GROUP_MASK
}

#[cfg(test)]
mod tests {
    use super::*;

    const NOT_SHORTEST: Reading = refused(Refusal::NotShortest, 0);
    const TOO_LARGE: Reading = refused(Refusal::TooLarge, 0);

    const fn refused(refusal: Refusal, offset: u64) -> Reading {
        Reading::Refused { refusal, offset }
    }

    const fn file_ends(offset: u64) -> Reading {
        refused(Refusal::FileEnds, offset)
    }

    /// A number at the front of a file.
    fn number(value: u64, next: u64) -> Reading {
        let offset = 0;
        Reading::Number {
            value,
            offset,
            next,
        }
    }

    #[test]
    fn examples_of_the_paper_both_ways() {
        let examples: [(u64, &[u8]); 4] = [
            (127, &[0x7F]),
            (128, &[0x80, 0x01]),
            (300, &[0xAC, 0x02]),
            (4_000_000_000, &[0x80, 0xD0, 0xAC, 0xF3, 0x0E]),
        ];
        for (value, bytes) in examples {
            assert_eq!(write_number(value), bytes);
            assert_eq!(read_number(bytes, 0), number(value, bytes.len() as u64));
        }
    }

    #[test]
    fn numbers_of_the_refusals() {
        assert_eq!(Refusal::FileEnds.number(), 1);
        assert_eq!(Refusal::NotShortest.number(), 2);
        assert_eq!(Refusal::TooLarge.number(), 3);
    }

    #[test]
    fn file_that_ends_is_refused_first() {
        assert_eq!(read_number(&[], 0), file_ends(0));
        assert_eq!(read_number(&[0x80], 0), file_ends(0));
        assert_eq!(read_number(&[0x80, 0x80, 0x80, 0x80], 0), file_ends(0));
        assert_eq!(read_number(&[0xFF, 0xFF, 0xFF, 0xFF], 0), file_ends(0));
    }

    #[test]
    fn fifth_group_that_goes_on_is_refused_at_once() {
        assert_eq!(read_number(&[0x80; 5], 0), TOO_LARGE);
        assert_eq!(
            read_number(&[0x80, 0x80, 0x80, 0x80, 0x80, 0x00], 0),
            TOO_LARGE
        );
        assert_eq!(
            read_number(&[0x80, 0x80, 0x80, 0x80, 0x81, 0x00], 0),
            TOO_LARGE
        );
    }

    #[test]
    fn zero_group_at_the_end_is_not_shortest() {
        assert_eq!(read_number(&[0x80, 0x00], 0), NOT_SHORTEST);
        assert_eq!(read_number(&[0xFF, 0x00], 0), NOT_SHORTEST);
        assert_eq!(
            read_number(&[0x80, 0x80, 0x80, 0x80, 0x00], 0),
            NOT_SHORTEST
        );
        assert_eq!(read_number(&[0x00], 0), number(0, 1));
    }

    #[test]
    fn value_above_the_limit_is_too_large() {
        assert_eq!(
            read_number(&[0x81, 0xD0, 0xAC, 0xF3, 0x0E], 0),
            TOO_LARGE,
            "one above the limit"
        );
        assert_eq!(
            read_number(&[0xFF, 0xFF, 0xFF, 0xFF, 0x7F], 0),
            TOO_LARGE,
            "the largest value of five groups"
        );
    }

    #[test]
    fn asked_byte_decides_where_reading_starts() {
        let file = [0x80, 0x80, 0xAC, 0x02, 0xFF];
        let read = |asked| match read_number(&file, asked) {
            Reading::Number {
                value,
                offset,
                next,
            } => [value, offset, next],
            Reading::Refused { refusal, .. } => panic!("{refusal:?} at {asked}"),
        };
        assert_eq!(read(2), [300, 2, 4]);
        assert_eq!(read(3), [2, 3, 4]);
        assert_eq!(read_number(&file, 4), file_ends(4));
    }

    #[test]
    fn fault_has_the_first_byte_of_its_number() {
        let behind_three = |form: &[u8]| read_number(&[&[0x01; 3], form].concat(), 3);
        assert_eq!(behind_three(&[0x80]), file_ends(3));
        assert_eq!(behind_three(&[0xFF; 4]), file_ends(3));
        assert_eq!(
            behind_three(&[0x80, 0x00]),
            refused(Refusal::NotShortest, 3)
        );
        assert_eq!(behind_three(&[0x80; 5]), refused(Refusal::TooLarge, 3));
        let one_above = write_number(LIMIT + 1);
        assert_eq!(behind_three(&one_above), refused(Refusal::TooLarge, 3));
    }

    #[test]
    fn number_without_a_byte_has_the_length_of_the_file() {
        let file = [0x01; 8];
        for asked in [8, 9, 1 << 32, (1 << 32) + 1, 1 << 63, u64::MAX] {
            assert_eq!(read_number(&file, asked), file_ends(8), "asked at {asked}");
            assert_eq!(read_number(&[], asked), file_ends(0), "asked at {asked}");
        }
    }

    #[test]
    fn bytes_of_a_number_end_with_its_last_group_or_the_file() {
        let form = [0x80, 0x81, 0xFF, 0x80, 0x80, 0x00];
        for (given, expected) in [
            (&form[..], &form[..5]),
            (&form[1..], &form[1..]),
            (&form[4..], &form[4..]),
            (&form[..4], &form[..4]),
            (&form[..1], &form[..1]),
            (&[0x7F, 0x80], &[0x7F]),
            (&[], &[]),
        ] {
            assert_eq!(bytes_of_number(given), expected);
        }
    }

    #[test]
    fn written_numbers_read_back() {
        let powers = (0..u64::BITS).map(|power| 1_u64 << power);
        let edges = powers.flat_map(|power| [power - 1, power, power.saturating_add(1)]);
        for value in edges.chain([LIMIT - 1, LIMIT, LIMIT + 1, u64::MAX]) {
            let bytes = write_number(value);
            let expected = if value <= LIMIT {
                number(value, bytes.len() as u64)
            } else {
                TOO_LARGE
            };
            assert_eq!(read_number(&bytes, 0), expected, "value {value}");
        }
    }

    #[test]
    fn padding_adds_zero_groups_only() {
        assert_eq!(padded(&[0x7F], 2), [0xFF, 0x00]);
        assert_eq!(padded(&[0xAC, 0x02], 4), [0xAC, 0x82, 0x80, 0x00]);
    }

    #[test]
    fn bytes_that_read_are_the_written_form() {
        const BYTES: [u8; 9] = [0x00, 0x01, 0x0E, 0x7F, 0x80, 0x81, 0xD0, 0xFE, 0xFF];
        let mut numbers = 0;
        for mut choice in 0..BYTES.len().pow(5) {
            let file = [(); 5].map(|()| {
                let byte = BYTES[choice % BYTES.len()];
                choice /= BYTES.len();
                byte
            });
            if let Reading::Number { value, next, .. } = read_number(&file, 0) {
                assert!(file.starts_with(&write_number(value)), "bytes {file:02X?}");
                assert_eq!(next, write_number(value).len() as u64, "bytes {file:02X?}");
                numbers += 1;
            }
        }
        assert!(numbers > 0);
    }
}
