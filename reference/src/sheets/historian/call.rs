//! The historian's call for a sheet, put as the file alone.

use super::left::Left;
use crate::frames::{first_file, write_file, FrameFault};
use crate::questions::{FileToPrint, Question};
use crate::sheets::printed::file::{in_words, PrintedSheet};

/// One question: what does the call with this file leave?
#[derive(Clone, Debug, PartialEq, Eq)]
pub struct DaysCall(pub Vec<u8>);

impl Question for DaysCall {
    type Answer = Left;

    const LABELS: &'static [&'static str] = PrintedSheet::LABELS;

    fn write_frame(&self, frames: &mut Vec<u8>) {
        write_file(&self.0, frames);
    }

    fn first_frame(input: &[u8]) -> Result<(Self, &[u8]), FrameFault> {
        let (file, rest) = first_file(input)?;
        Ok((DaysCall(file.to_vec()), rest))
    }

    fn answer(&self) -> Left {
        Left::by(&self.0)
    }

    fn in_words(&self) -> String {
        in_words(&self.0)
    }
}

#[cfg(test)]
mod tests {
    use super::*;

    #[test]
    fn words_hold_the_bytes() {
        assert_eq!(DaysCall(vec![0x01, 0x80]).in_words(), "bytes [01 80]");
        let words = DaysCall(vec![0x01; 70_000]).in_words();
        assert!(words.starts_with("70000 bytes [01 01 "));
    }
}
