//! Cases of the whole of the paper, stated for use elsewhere.

use super::accounts::{account, Tables};
use crate::questions::{file_digits, spaced};
use std::fmt;

/// Written between the numbers of the plant table and those of the segment table.
const BETWEEN_TABLES: &str = "|";

/// A file and the tables for its rows.
#[derive(Clone, Debug, PartialEq, Eq)]
pub struct PeriodCase {
    pub file: Vec<u8>,
    pub tables: Tables,
}

impl PeriodCase {
    /// Our own answer: the numbers of both tables, or the refusal.
    pub fn answer(&self) -> String {
        match account(&self.file, self.tables) {
            Ok(rows) => format!(
                "A {} {BETWEEN_TABLES} {}",
                spaced(&rows.plant_numbers()),
                spaced(&rows.segment_numbers())
            ),
            Err(refused) => refused.to_string(),
        }
    }
}

/// The case in one line: the lengths of the tables, the bytes of the file, the answer.
impl fmt::Display for PeriodCase {
    fn fmt(&self, out: &mut fmt::Formatter) -> fmt::Result {
        let Tables { plant, segment } = self.tables;
        let digits = file_digits(&self.file);
        write!(out, "{plant} {segment} {digits} {}", self.answer())
    }
}

#[cfg(test)]
mod tests {
    use super::*;

    fn line_of(file: &[u8], tables: Tables) -> String {
        let file = file.to_vec();
        PeriodCase { file, tables }.to_string()
    }

    #[test]
    fn line_holds_lengths_bytes_and_answer() {
        let one_plant_one_store = [1, 1, 1, 0, 0, 1, 0, 6, 0, 0];
        assert_eq!(
            line_of(&one_plant_one_store, Tables::just_for(1, 1)),
            "8 5 01010100000100060000 A 0 0 0 0 0 0 0 0 | 0 0 0 0 1"
        );
        assert_eq!(line_of(&[], Tables::just_for(2, 0)), "16 0 - R 1 0 0");
    }
}
