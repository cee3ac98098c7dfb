//! How many questions are put to a program at once: their frames, one after the other.
//!
//! Every frame ends with the bytes of a file or of a list; lengths have 4 bytes, least significant first.

use crate::questions::Question;
use std::fmt;

/// Why a frame cannot be read.
#[derive(Debug, PartialEq, Eq)]
pub enum FrameFault {
    /// The input ends inside it.
    CutShort,
    /// It starts with another byte than the letter of the kind that is read.
    OtherKind { came: u8, expected: u8 },
}

/// A frame that cannot be read.
#[derive(Debug, PartialEq, Eq)]
pub struct UnreadFrame {
    /// How many whole frames are before it.
    whole_frames: usize,
    fault: FrameFault,
}

impl fmt::Display for UnreadFrame {
    fn fmt(&self, out: &mut fmt::Formatter) -> fmt::Result {
        let whole_frames = self.whole_frames;
        match self.fault {
            FrameFault::CutShort => write!(
                out,
                "the input ends inside a frame, after {whole_frames} whole frames; \
                 give every frame as many bytes as its length says"
            ),
            FrameFault::OtherKind { came, expected } => write!(
                out,
                "a frame starts with the byte 0x{came:02X}, after {whole_frames} whole frames; \
                 give only frames that start with 0x{expected:02X}, the letter {}",
                char::from(expected)
            ),
        }
    }
}

/// Writes the frames of all questions.
pub fn write_frames<Q: Question>(cases: &[Q]) -> Vec<u8> {
    let mut frames = Vec::new();
    for case in cases {
        case.write_frame(&mut frames);
    }
    frames
}

/// Reads frames up to the end of the input.
pub fn read_frames<Q: Question>(input: &[u8]) -> Result<Vec<Q>, UnreadFrame> {
    let mut cases = Vec::new();
    let mut rest = input;
    while !rest.is_empty() {
        let (case, after) = Q::first_frame(rest).map_err(|fault| UnreadFrame {
            whole_frames: cases.len(),
            fault,
        })?;
        cases.push(case);
        rest = after;
    }
    Ok(cases)
}

/// Appends a file: its length, then its bytes.
pub fn write_file(file: &[u8], frames: &mut Vec<u8>) {
    write_length(file.len(), frames);
    frames.extend(file);
}

/// Appends a length.
pub fn write_length(length: usize, frames: &mut Vec<u8>) {
    let length = u32::try_from(length).expect("a case's lengths fit their 4 bytes");
    frames.extend(length.to_le_bytes());
}

/// The file at the start of the input, and what follows it.
pub fn first_file(input: &[u8]) -> Result<(&[u8], &[u8]), FrameFault> {
    let (length, rest) = first_length(input)?;
    first_bytes(rest, length)
}

/// The length at the start of the input, and what follows it.
pub fn first_length(input: &[u8]) -> Result<(usize, &[u8]), FrameFault> {
    let (length, rest) = first_array(input)?;
    // No input has as many bytes as a length that does not fit here.
    let length = usize::try_from(u32::from_le_bytes(length)).map_err(|_| FrameFault::CutShort)?;
    Ok((length, rest))
}

/// As many bytes of a frame as the array has, and what follows them.
pub fn first_array<const N: usize>(input: &[u8]) -> Result<([u8; N], &[u8]), FrameFault> {
    let (bytes, rest) = first_bytes(input, N)?;
    let bytes = bytes.try_into().expect("as many bytes as the array has");
    Ok((bytes, rest))
}

/// The first `length` bytes of a frame, and what follows them.
pub fn first_bytes(input: &[u8], length: usize) -> Result<(&[u8], &[u8]), FrameFault> {
    split(input, length).ok_or(FrameFault::CutShort)
}

/// The first bytes of the input and the rest; nothing if there are fewer.
pub fn split(input: &[u8], length: usize) -> Option<(&[u8], &[u8])> {
    (length <= input.len()).then(|| input.split_at(length))
}

#[cfg(test)]
mod tests {
    use super::*;
    use crate::numbers::question::NumberAt;
    use crate::periods::historian::call::HistorianCall;
    use crate::periods::historian::table_bytes::TableBytes;
    use crate::periods::question::PeriodFile;
    use crate::sheets::historian::call::DaysCall;
    use crate::writing::historian::call::WriteCall;
    use std::fmt::Debug;

    fn two_numbers() -> Vec<NumberAt> {
        vec![
            NumberAt {
                file: vec![0xAC, 0x02],
                byte: 0x0102_0304_0506_0708,
            },
            NumberAt {
                file: vec![],
                byte: u64::MAX,
            },
        ]
    }

    fn two_files() -> Vec<PeriodFile> {
        [vec![0x01, 0x02, 0x80], vec![]].map(PeriodFile).to_vec()
    }

    fn two_calls() -> Vec<HistorianCall> {
        let calls = [(vec![0x01, 0x80], 0x0102_0304, 5), (vec![], 0, 0)];
        let calls = calls.map(|(file, plant, segment)| HistorianCall {
            file,
            tables: TableBytes { plant, segment },
        });
        calls.to_vec()
    }

    fn two_sheets() -> Vec<DaysCall> {
        [vec![0x01, 0x80], vec![]].map(DaysCall).to_vec()
    }

    fn two_writes() -> Vec<WriteCall> {
        let first = WriteCall::of(&[300], 0x0102_0304).with_spare(&[7]);
        vec![first, WriteCall::of(&[], 0)]
    }

    /// Asserts that the frames of two questions read back, and that every cut is reported.
    fn assert_read_back<Q: Question + Clone + Debug + PartialEq>(cases: &[Q]) {
        let frames = write_frames(cases);
        let first = write_frames(&cases[..1]).len();
        assert_eq!(read_frames(&frames), Ok(cases.to_vec()));
        assert_eq!(read_frames::<Q>(&[]), Ok(vec![]));
        for length in 1..frames.len() {
            let expected = if length == first {
                Ok(cases[..1].to_vec())
            } else {
                Err(UnreadFrame {
                    whole_frames: usize::from(length > first),
                    fault: FrameFault::CutShort,
                })
            };
            assert_eq!(read_frames(&frames[..length]), expected, "length {length}");
        }
    }

    #[test]
    fn frame_of_a_number_is_letter_then_asked_byte_then_length_then_bytes() {
        let frames = write_frames(&two_numbers()[..1]);
        let expected = [0x4E, 8, 7, 6, 5, 4, 3, 2, 1, 2, 0, 0, 0, 0xAC, 0x02];
        assert_eq!(frames, expected);
    }

    #[test]
    fn frame_of_a_period_is_letter_then_no_asked_byte_then_length_then_bytes() {
        let frames = write_frames(&two_files());
        let expected = [
            &[0x50, 0, 0, 0, 0, 0, 0, 0, 0, 3, 0, 0, 0, 0x01, 0x02, 0x80][..],
            &[0x50, 0, 0, 0, 0, 0, 0, 0, 0, 0, 0, 0, 0],
        ];
        assert_eq!(frames, expected.concat());
    }

    #[test]
    fn frame_of_a_call_is_three_lengths_then_bytes() {
        let frames = write_frames(&two_calls()[..1]);
        let expected = [2, 0, 0, 0, 4, 3, 2, 1, 5, 0, 0, 0, 0x01, 0x80];
        assert_eq!(frames, expected);
    }

    #[test]
    fn frame_of_a_sheet_is_length_then_bytes() {
        let frames = write_frames(&two_sheets());
        assert_eq!(frames, [2, 0, 0, 0, 0x01, 0x80, 0, 0, 0, 0]);
    }

    #[test]
    fn frame_of_a_list_is_two_lengths_then_bytes() {
        let frames = write_frames(&two_writes()[..1]);
        let expected = [
            &[9, 0, 0, 0, 4, 3, 2, 1][..],
            &[44, 1, 0, 0, 0, 0, 0, 0],
            &[7],
        ];
        assert_eq!(frames, expected.concat());
    }

    #[test]
    fn written_frames_read_back_and_cuts_are_said() {
        assert_read_back(&two_numbers());
        assert_read_back(&two_files());
        assert_read_back(&two_calls());
        assert_read_back(&two_sheets());
        assert_read_back(&two_writes());
    }

    /// Asserts what is said of the input whose frames are read as this question's.
    fn assert_said<Q: Question + Debug>(input: &[u8], said: &str) {
        let unread = read_frames::<Q>(input).expect_err("the input is not read");
        assert_eq!(unread.to_string(), said);
    }

    #[test]
    fn frame_of_another_kind_is_said_with_what_to_do() {
        let numbers = write_frames(&two_numbers());
        let files = write_frames(&two_files());
        assert_said::<NumberAt>(
            &[&numbers[..], &files].concat(),
            "a frame starts with the byte 0x50, after 2 whole frames; \
             give only frames that start with 0x4E, the letter N",
        );
        assert_said::<PeriodFile>(
            &numbers,
            "a frame starts with the byte 0x4E, after 0 whole frames; \
             give only frames that start with 0x50, the letter P",
        );
    }

    #[test]
    fn cut_is_said_with_what_to_do() {
        let files = write_frames(&two_files());
        assert_said::<PeriodFile>(
            &files[..files.len() - 1],
            "the input ends inside a frame, after 1 whole frames; \
             give every frame as many bytes as its length says",
        );
    }
}
