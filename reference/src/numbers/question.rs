//! The question about one number, put as a case about one byte of a file.

use super::number::{read_number, Reading};
use crate::answer_line::AnswerLine;
use crate::asked_file::{AskedFile, Kind};
use crate::frames::FrameFault;
use crate::questions::{hex, Question};

/// One question: what is at this byte of this file?
#[derive(Clone, Debug, PartialEq, Eq)]
pub struct NumberAt {
    pub file: Vec<u8>,
    pub byte: u64,
}

impl Question for NumberAt {
    type Answer = AnswerLine;

    const LABELS: &'static [&'static str] = &["N", "R1", "R2", "R3"];

    fn write_frame(&self, frames: &mut Vec<u8>) {
        let asked = AskedFile {
            byte: self.byte,
            file: &self.file,
        };
        asked.write_frame(Kind::Number, frames);
    }

    fn first_frame(input: &[u8]) -> Result<(Self, &[u8]), FrameFault> {
        let (AskedFile { byte, file }, rest) = AskedFile::first_frame(Kind::Number, input)?;
        let file = file.to_vec();
        Ok((NumberAt { file, byte }, rest))
    }

    /// A number has its value, its first byte and the byte behind it. A fault has the asked byte
    /// where a refusal has its place, since nobody counted the numbers before it.
    fn answer(&self) -> AnswerLine {
        AnswerLine(match read_number(&self.file, self.byte) {
            Reading::Number {
                value,
                offset,
                next,
            } => format!("N {value} {offset} {next}\n"),
            Reading::Refused { refusal, offset } => {
                format!("R {} {} {offset}\n", refusal.number(), self.byte)
            }
        })
    }

    fn in_words(&self) -> String {
        format!("bytes [{}], asked at {}", hex(&self.file, " "), self.byte)
    }
}

#[cfg(test)]
mod tests {
    use super::*;

    fn asked(file: &[u8], byte: u64) -> NumberAt {
        let file = file.to_vec();
        NumberAt { file, byte }
    }

    fn answer(file: &[u8], byte: u64) -> String {
        asked(file, byte).answer().0
    }

    #[test]
    fn answers_are_one_line_each() {
        assert_eq!(answer(&[0xFF, 0xFF, 0xAC, 0x02], 2), "N 300 2 4\n");
        assert_eq!(answer(&[0x01, 0x80], 1), "R 1 1 1\n");
        assert_eq!(answer(&[0x01, 0x80, 0x00], 1), "R 2 1 1\n");
        let too_large = [0x00, 0x80, 0x80, 0x80, 0x80, 0x80];
        assert_eq!(answer(&too_large, 1), "R 3 1 1\n");
    }

    #[test]
    fn at_the_end_and_past_it_the_offset_is_the_length() {
        assert_eq!(answer(&[], 0), "R 1 0 0\n");
        assert_eq!(answer(&[0x01, 0x02], 2), "R 1 2 2\n");
        assert_eq!(answer(&[0x01, 0x02], 3), "R 1 3 2\n");
        assert_eq!(answer(&[0x01], u64::MAX), "R 1 18446744073709551615 1\n");
    }

    #[test]
    fn words_hold_bytes_and_the_asked_one() {
        assert_eq!(
            asked(&[0xAC, 0x02], 1).in_words(),
            "bytes [AC 02], asked at 1"
        );
    }
}
