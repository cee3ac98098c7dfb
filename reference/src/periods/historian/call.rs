//! The call of the historian, put as the lengths of the file and of both tables, then the file.

use super::returned::Returned;
use super::table_bytes::TableBytes;
use crate::frames::{first_bytes, first_length, write_length, FrameFault};
use crate::periods::case::PeriodCase;
use crate::questions::{hex, Question};

/// One question: what does the call with this file and such tables leave?
#[derive(Clone, Debug, PartialEq, Eq)]
pub struct HistorianCall {
    pub file: Vec<u8>,
    pub tables: TableBytes,
}

impl HistorianCall {
    /// The call for a case, its tables without spare bytes.
    pub fn of(case: PeriodCase) -> Self {
        HistorianCall {
            file: case.file,
            tables: TableBytes::of(case.tables),
        }
    }
}

impl Question for HistorianCall {
    type Answer = Returned;

    const LABELS: &'static [&'static str] = &[
        "A", "R1", "R2", "R3", "R4", "R5", "R6", "R7", "R8", "R9", "R10", "R11", "R12", "R13",
        "R14", "R15", "R16",
    ];

    fn write_frame(&self, frames: &mut Vec<u8>) {
        write_length(self.file.len(), frames);
        write_length(self.tables.plant, frames);
        write_length(self.tables.segment, frames);
        frames.extend(&self.file);
    }

    fn first_frame(input: &[u8]) -> Result<(Self, &[u8]), FrameFault> {
        let (file, rest) = first_length(input)?;
        let (plant, rest) = first_length(rest)?;
        let (segment, rest) = first_length(rest)?;
        let (file, rest) = first_bytes(rest, file)?;
        let call = HistorianCall {
            file: file.to_vec(),
            tables: TableBytes { plant, segment },
        };
        Ok((call, rest))
    }

    fn answer(&self) -> Returned {
        Returned::of(&self.file, self.tables)
    }

    fn in_words(&self) -> String {
        let TableBytes { plant, segment } = self.tables;
        format!(
            "bytes [{}], plant table of {plant} bytes, segment table of {segment} bytes",
            hex(&self.file, " ")
        )
    }
}

#[cfg(test)]
mod tests {
    use super::*;
    use crate::periods::historian::table_bytes::NUMBER_BYTES;
    use crate::periods::paper::proved_cases;

    #[test]
    fn tables_of_a_case_have_no_spare_bytes() {
        for case in proved_cases() {
            let call = HistorianCall::of(case.clone());
            assert_eq!(call.tables.whole_numbers(), case.tables);
            assert_eq!(call.tables.plant % NUMBER_BYTES, 0);
            assert_eq!(call.tables.segment % NUMBER_BYTES, 0);
        }
    }

    #[test]
    fn words_hold_the_bytes_and_both_lengths() {
        let call = HistorianCall {
            file: vec![0x01, 0x80],
            tables: TableBytes {
                plant: 65,
                segment: 0,
            },
        };
        assert_eq!(
            call.in_words(),
            "bytes [01 80], plant table of 65 bytes, segment table of 0 bytes"
        );
    }
}
