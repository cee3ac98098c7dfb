//! A period file on standard input, and what a program prints for it.

use crate::periods::accounts::{account, printed, Tables};
use crate::questions::{file_in_words, label_of, FileToPrint};

/// How many bytes of a file are shown: all that a period can have, and not all that come after.
const SHOWN_BYTES: usize = 8192;

/// One question: what is printed for this file?
#[derive(Clone, Debug, PartialEq, Eq)]
pub struct PrintedFile(pub Vec<u8>);

impl FileToPrint for PrintedFile {
    /// Rows begin with those of plants, and no table can be too short.
    const LABELS: &'static [&'static str] = &[
        "P", "R1", "R2", "R3", "R4", "R5", "R6", "R7", "R8", "R9", "R10", "R11", "R12", "R13",
        "R16",
    ];

    fn file(&self) -> &[u8] {
        &self.0
    }

    fn printed(&self) -> String {
        printed(&account(&self.0, Tables::LARGE_ENOUGH))
    }

    /// The label of the first line.
    fn label_of(printed: &str) -> String {
        label_of(printed)
    }

    fn in_words(&self) -> String {
        file_in_words(&self.0, SHOWN_BYTES)
    }
}

#[cfg(test)]
mod tests {
    use super::*;
    use crate::periods::paper::whole_period;

    #[test]
    fn rows_or_refusal_are_printed() {
        let rows = PrintedFile(whole_period()).printed();
        assert!(rows.starts_with("P 1 10000 9931 69 "));
        assert!(rows.ends_with("\nS 2 14900 14899 1 0 3\n"));
        assert_eq!(PrintedFile(vec![0x01]).printed(), "R 1 1 1\n");
    }

    #[test]
    fn words_show_so_many_bytes() {
        let file = PrintedFile(vec![0x01, 0x80]);
        assert_eq!(file.in_words(), "bytes [01 80]");
        let words = PrintedFile(vec![0x01; 1_000_000]).in_words();
        assert!(words.starts_with("1000000 bytes [01 01 "));
        assert!(words.ends_with(" 01 01 ..]"));
        assert!(words.len() < 25_000);
    }
}
