//! The question how a period file is read, put as a case about the whole file.

use super::reading::read_period;
use crate::answer_line::AnswerLine;
use crate::asked_file::{AskedFile, Kind, NO_BYTE};
use crate::frames::FrameFault;
use crate::questions::{hex, spaced, Question};

/// One question: what are the records of this file, or why is it refused?
#[derive(Clone, Debug, PartialEq, Eq)]
pub struct PeriodFile(pub Vec<u8>);

impl Question for PeriodFile {
    type Answer = AnswerLine;

    const LABELS: &'static [&'static str] =
        &["A", "R1", "R2", "R3", "R4", "R5", "R6", "R7", "R8", "R9"];

    fn write_frame(&self, frames: &mut Vec<u8>) {
        let asked = AskedFile {
            byte: NO_BYTE,
            file: &self.0,
        };
        asked.write_frame(Kind::Period, frames);
    }

    fn first_frame(input: &[u8]) -> Result<(Self, &[u8]), FrameFault> {
        let (asked, rest) = AskedFile::first_frame(Kind::Period, input)?;
        Ok((PeriodFile(asked.file.to_vec()), rest))
    }

    fn answer(&self) -> AnswerLine {
        AnswerLine(match read_period(&self.0) {
            Ok(period) => format!("A {}\n", spaced(&period.numbers())),
            Err(refused) => format!("{refused}\n"),
        })
    }

    fn in_words(&self) -> String {
        format!("bytes [{}]", hex(&self.0, " "))
    }
}

#[cfg(test)]
mod tests {
    use super::*;
    use crate::periods::paper::whole_period;

    #[test]
    fn answers_are_one_line_each() {
        assert_eq!(
            PeriodFile(whole_period()).answer().0,
            "A 1 2 2 2 10000 1 1000000 5001 1 900000 1 14900 2 6 14899 0 \
             0 1 4 2000 350 1 1 3 101 2650\n"
        );
        assert_eq!(PeriodFile(vec![0x01]).answer().0, "R 1 1 1\n");
    }

    #[test]
    fn asked_byte_is_not_looked_at() {
        let frame = [b'P', 8, 7, 6, 5, 4, 3, 2, 1, 1, 0, 0, 0, 0x80];
        let read = PeriodFile::first_frame(&frame);
        assert_eq!(read, Ok((PeriodFile(vec![0x80]), &[][..])));
    }

    #[test]
    fn words_hold_the_bytes() {
        assert_eq!(PeriodFile(vec![0x01, 0x80]).in_words(), "bytes [01 80]");
    }
}
