//! A file on standard input, and the inspector's page that a program prints for it.

use super::page::inspect;
use crate::questions::{hex, label_of, FileToPrint};

/// The longest file that is shown in full: longer ones are runs of the same numbers.
const LONGEST_SHOWN: usize = 16_384;
/// How many bytes are shown of each end of a longer one.
const SHOWN_OF_AN_END: usize = 64;

/// One question: what is the page of this file?
#[derive(Clone, Debug, PartialEq, Eq)]
pub struct InspectedFile(pub Vec<u8>);

impl FileToPrint for InspectedFile {
    /// How a page can end.
    const LABELS: &'static [&'static str] = &["F1", "F2", "F3", "E", "C"];
    /// What the period's reading can say of the file.
    const LABELS_BESIDES: &'static [&'static str] =
        &["read", "R1", "R2", "R3", "R4", "R5", "R6", "R7", "R8", "R9"];

    fn file(&self) -> &[u8] {
        &self.0
    }

    fn printed(&self) -> String {
        inspect(&self.0).to_string()
    }

    /// The label of the last line.
    fn label_of(printed: &str) -> String {
        label_of(printed.lines().last().unwrap_or_default())
    }

    /// The label of the refusal's line; if there is none, the file was read.
    fn label_besides(printed: &str) -> Option<String> {
        let refusal = printed.lines().find(|line| line.starts_with('R'));
        Some(refusal.map_or("read".to_string(), label_of))
    }

    fn in_words(&self) -> String {
        let length = self.0.len();
        if length <= LONGEST_SHOWN {
            return format!("bytes [{}]", hex(&self.0, " "));
        }
        let first = hex(&self.0[..SHOWN_OF_AN_END], " ");
        let last = hex(&self.0[length - SHOWN_OF_AN_END..], " ");
        format!("{length} bytes [{first} .. {last}]")
    }
}

#[cfg(test)]
mod tests {
    use super::*;
    use crate::periods::paper::whole_period;

    fn label(file: &[u8]) -> String {
        InspectedFile::label_of(&InspectedFile(file.to_vec()).printed())
    }

    fn besides(file: &[u8]) -> String {
        let label = InspectedFile::label_besides(&InspectedFile(file.to_vec()).printed());
        label.expect("every page is counted")
    }

    #[test]
    fn pages_are_counted_by_their_last_lines() {
        assert_eq!(label(&[0x02, 0x00, 0x00, 0x00]), "E");
        assert_eq!(label(&[0x01]), "E");
        assert_eq!(label(&[0x80]), "F1");
        assert_eq!(label(&[0x80, 0x00]), "F2");
        assert_eq!(label(&[0x80; 5]), "F3");
        assert_eq!(label(&vec![0x00; 65_536]), "C");
    }

    #[test]
    fn pages_are_counted_besides_by_what_reading_says() {
        assert_eq!(besides(&whole_period()), "read");
        assert_eq!(besides(&[]), "R1");
        assert_eq!(besides(&[0x80, 0x00]), "R2");
        assert_eq!(besides(&[0x02, 0x80, 0x00]), "R4");
        assert_eq!(besides(&[whole_period(), vec![0x80]].concat()), "R9");
        assert_eq!(besides(&vec![0x00; 65_536]), "R4");
    }

    #[test]
    fn words_show_both_ends_of_a_long_file() {
        let file = InspectedFile(vec![0x01, 0x80]);
        assert_eq!(file.in_words(), "bytes [01 80]");
        let mut long = vec![0x01; 70_000];
        long.push(0x80);
        let words = InspectedFile(long).in_words();
        assert!(words.starts_with("70001 bytes [01 01 "));
        assert!(words.ends_with(" 01 80]"));
        assert!(words.len() < 500);
    }
}
