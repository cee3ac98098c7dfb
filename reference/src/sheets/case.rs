//! Cases of sheets, stated for use elsewhere.

use super::figures::figures_of;
use crate::questions::file_digits;
use std::fmt;

/// A file that may be a sheet.
#[derive(Clone, Debug, PartialEq, Eq)]
pub struct SheetCase(pub Vec<u8>);

impl SheetCase {
    /// Our own answer: the five figures, or the refusal.
    pub fn answer(&self) -> String {
        match figures_of(&self.0) {
            Ok(figures) => format!("A {figures}"),
            Err(refused) => refused.to_string(),
        }
    }
}

/// The case in one line: the bytes of the file, the answer.
impl fmt::Display for SheetCase {
    fn fmt(&self, out: &mut fmt::Formatter) -> fmt::Result {
        write!(out, "{} {}", file_digits(&self.0), self.answer())
    }
}

#[cfg(test)]
mod tests {
    use super::*;

    #[test]
    fn line_holds_bytes_and_answer() {
        let line_of = |file: &[u8]| SheetCase(file.to_vec()).to_string();
        assert_eq!(line_of(&[3, 0xAC, 0x02, 9, 9]), "03AC020909 A 318 1 0 2 2");
        assert_eq!(line_of(&[1, 0]), "0100 A 0 0 0 0 0");
        assert_eq!(line_of(&[]), "- R 1 0 0");
        assert_eq!(line_of(&[0x01, 0x05, 0x80]), "010580 R 9 2 2");
    }
}
