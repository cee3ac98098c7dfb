//! The form that the cases about a file share, so that one program takes all kinds of them: the
//! letter of the kind, the asked byte of the file (8 bytes, least significant first), the file.

use crate::frames::{first_array, first_file, write_file, FrameFault};

/// What is asked about a file, each kind with its letter.
#[derive(Clone, Copy)]
#[repr(u8)]
pub enum Kind {
    /// Which number is at the asked byte?
    Number = b'N',
    /// How is this period file read?
    Period = b'P',
}

/// The asked byte if the kind asks about the file as a whole.
pub const NO_BYTE: u64 = 0;

/// A file and the byte of it that is asked about.
#[derive(Clone, Copy, Debug, PartialEq, Eq)]
pub struct AskedFile<'a> {
    pub byte: u64,
    pub file: &'a [u8],
}

impl<'a> AskedFile<'a> {
    /// Appends the frame of a case of this kind.
    pub fn write_frame(self, kind: Kind, frames: &mut Vec<u8>) {
        frames.push(kind as u8);
        frames.extend(self.byte.to_le_bytes());
        write_file(self.file, frames);
    }

    /// What the first frame asks about, if it is of this kind, and what follows the frame.
    pub fn first_frame(kind: Kind, input: &'a [u8]) -> Result<(Self, &'a [u8]), FrameFault> {
        let ([came], rest) = first_array(input)?;
        let expected = kind as u8;
        if came != expected {
            return Err(FrameFault::OtherKind { came, expected });
        }
        let (byte, rest) = first_array(rest)?;
        let byte = u64::from_le_bytes(byte);
        let (file, rest) = first_file(rest)?;
        Ok((AskedFile { byte, file }, rest))
    }
}

#[cfg(test)]
mod tests {
    use super::*;

    const ASKED: AskedFile = AskedFile {
        byte: 0x0102_0304_0506_0708,
        file: &[0xAC, 0x02],
    };

    /// The frame of a case of this kind.
    fn frame(kind: Kind) -> Vec<u8> {
        let mut frame = Vec::new();
        ASKED.write_frame(kind, &mut frame);
        frame
    }

    #[test]
    fn kinds_differ_in_their_letter_alone() {
        let after_the_letter = [8, 7, 6, 5, 4, 3, 2, 1, 2, 0, 0, 0, 0xAC, 0x02];
        for (kind, letter) in [(Kind::Number, 0x4E), (Kind::Period, 0x50)] {
            assert_eq!(frame(kind), [&[letter][..], &after_the_letter].concat());
        }
    }

    #[test]
    fn written_frame_reads_back_with_what_follows() {
        for kind in [Kind::Number, Kind::Period] {
            let input = [frame(kind), vec![7, 8]].concat();
            let read = AskedFile::first_frame(kind, &input);
            assert_eq!(read, Ok((ASKED, &[7, 8][..])));
        }
    }

    #[test]
    fn every_other_letter_is_another_kind() {
        let mut input = frame(Kind::Number);
        for came in (0..=u8::MAX).filter(|&byte| byte != b'N') {
            input[0] = came;
            let expected = b'N';
            let fault = FrameFault::OtherKind { came, expected };
            assert_eq!(AskedFile::first_frame(Kind::Number, &input), Err(fault));
        }
    }

    #[test]
    fn letter_is_looked_at_before_the_rest() {
        let fault = FrameFault::OtherKind {
            came: b'N',
            expected: b'P',
        };
        assert_eq!(AskedFile::first_frame(Kind::Period, b"N"), Err(fault));
    }
}
