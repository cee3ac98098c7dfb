//! A sheet on standard input, and what a program prints for it.

use crate::questions::{file_in_words, label_of, FileToPrint};
use crate::sheets::figures::{figures_of, printed};

/// How many bytes of a file are shown: all that a sheet can have, and not all that come after.
const SHOWN_BYTES: usize = 2048;

/// One question: what is printed for this file?
#[derive(Clone, Debug, PartialEq, Eq)]
pub struct PrintedSheet(pub Vec<u8>);

impl FileToPrint for PrintedSheet {
    const LABELS: &'static [&'static str] = &["A", "R1", "R2", "R3", "R5", "R9"];

    fn file(&self) -> &[u8] {
        &self.0
    }

    fn printed(&self) -> String {
        printed(&figures_of(&self.0))
    }

    /// The label of a refusal; figures have no letter of their own.
    fn label_of(printed: &str) -> String {
        if printed.starts_with('R') {
            label_of(printed)
        } else {
            "A".to_string()
        }
    }

    fn in_words(&self) -> String {
        in_words(&self.0)
    }
}

/// A file in words, be it a sheet or not.
pub fn in_words(file: &[u8]) -> String {
    file_in_words(file, SHOWN_BYTES)
}

#[cfg(test)]
mod tests {
    use super::*;

    #[test]
    fn figures_or_refusal_are_printed() {
        let sheet = PrintedSheet(vec![3, 9, 0, 0]);
        assert_eq!(sheet.printed(), "9 0 1 1 1\n");
        assert_eq!(PrintedSheet::label_of(&sheet.printed()), "A");
        let refused = PrintedSheet(vec![3, 9, 0]);
        assert_eq!(refused.printed(), "R 1 3 3\n");
        assert_eq!(PrintedSheet::label_of(&refused.printed()), "R1");
    }

    #[test]
    fn words_show_a_whole_sheet_but_no_longer_file() {
        let longest = PrintedSheet(vec![0x80; 2 + 5 * 366]);
        assert!(longest.in_words().ends_with(" 80 80]"));
        let words = PrintedSheet(vec![0x01; 70_000]).in_words();
        assert!(words.starts_with("70000 bytes [01 01 "));
        assert!(words.ends_with(" 01 01 ..]"));
    }
}
