//! What a call leaves with the historian: the refusal, its place and its offset, then all bytes of
//! both tables.

use super::table_bytes::{TableBytes, NUMBER_BYTES};
use crate::frames::split;
use crate::lent_bytes::{first_difference, Pattern};
use crate::periods::accounts::account;
use crate::questions::Answer;
use crate::verdict::Verdict;

/// What the tables are before the call.
const PLANT_PATTERN: Pattern = Pattern {
    first: 90,
    step: 17,
};
const SEGMENT_PATTERN: Pattern = Pattern {
    first: 165,
    step: 29,
};

/// What a call leaves.
#[derive(Debug, PartialEq, Eq)]
pub struct Returned {
    verdict: Verdict,
    plant_table: Vec<u8>,
    segment_table: Vec<u8>,
}

impl Returned {
    /// What the call with this file and such tables must leave.
    pub fn of(file: &[u8], tables: TableBytes) -> Self {
        let accounted = account(file, tables.whole_numbers());
        let before = Returned {
            verdict: Verdict::of(&accounted),
            plant_table: PLANT_PATTERN.bytes(tables.plant),
            segment_table: SEGMENT_PATTERN.bytes(tables.segment),
        };
        match accounted {
            Ok(rows) => Returned {
                plant_table: written_over(before.plant_table, &rows.plant_numbers()),
                segment_table: written_over(before.segment_table, &rows.segment_numbers()),
                ..before
            },
            Err(_) => before,
        }
    }

    /// What came for this answer, taken apart; nothing if it is cut short.
    fn taken_apart(&self, came: &[u8]) -> Option<Returned> {
        let (verdict, rest) = Verdict::first_in(came)?;
        let (plant_table, rest) = split(rest, self.plant_table.len())?;
        let (segment_table, _) = split(rest, self.segment_table.len())?;
        Some(Returned {
            verdict,
            plant_table: plant_table.to_vec(),
            segment_table: segment_table.to_vec(),
        })
    }

    /// What came beside this answer, each part that differs in words.
    fn differences(&self, came: &Returned) -> Vec<String> {
        let verdict = self.verdict.difference(came.verdict);
        let plant = first_difference("plant table", &self.plant_table, &came.plant_table);
        let segment = first_difference("segment table", &self.segment_table, &came.segment_table);
        [verdict, plant, segment].into_iter().flatten().collect()
    }
}

/// The table with the numbers written at its start, least significant byte first.
fn written_over(mut table: Vec<u8>, numbers: &[u64]) -> Vec<u8> {
    for (number, entry) in numbers.iter().zip(table.chunks_exact_mut(NUMBER_BYTES)) {
        entry.copy_from_slice(&number.to_le_bytes());
    }
    table
}

impl Answer for Returned {
    fn label(&self) -> String {
        self.verdict.label()
    }

    fn bytes(&self) -> Vec<u8> {
        let mut bytes = self.verdict.bytes();
        bytes.extend(&self.plant_table);
        bytes.extend(&self.segment_table);
        bytes
    }

    fn length_in(&self, output: &[u8]) -> usize {
        self.bytes().len().min(output.len())
    }

    fn difference(&self, came: &[u8]) -> String {
        match self.taken_apart(came) {
            Some(came) => self.differences(&came).join("; "),
            None => self.verdict.cut_short(came.len(), self.bytes().len()),
        }
    }
}

#[cfg(test)]
mod tests {
    use super::*;
    use crate::periods::paper::whole_period;

    /// A period of one plant and one store, with the plant's export.
    const SMALLEST: [u8; 10] = [1, 1, 1, 0, 3, 1, 0, 6, 2, 0];

    /// What the call with this file and tables of these lengths in bytes must leave.
    fn left_by(file: &[u8], plant: usize, segment: usize) -> Returned {
        Returned::of(file, TableBytes { plant, segment })
    }

    #[test]
    fn tables_before_the_call_are_those_of_the_test_program() {
        let by_formula = |first: usize, step: usize| -> Vec<u8> {
            (0..600)
                .map(|place| ((step * place + first) % 256) as u8)
                .collect()
        };
        assert_eq!(PLANT_PATTERN.bytes(600), by_formula(90, 17));
        assert_eq!(SEGMENT_PATTERN.bytes(600), by_formula(165, 29));
    }

    #[test]
    fn accepted_file_writes_the_first_numbers_and_no_more() {
        let returned = left_by(&SMALLEST, 64 + 3, 40 + 9);
        let numbers =
            |numbers: &[u64]| -> Vec<u8> { numbers.iter().flat_map(|n| n.to_le_bytes()).collect() };
        assert_eq!(returned.label(), "A");
        assert_eq!(
            returned.plant_table[..64],
            numbers(&[3, 2, 1, 0, 0, 0, 0, 0])
        );
        assert_eq!(returned.plant_table[64..], PLANT_PATTERN.bytes(67)[64..]);
        assert_eq!(returned.segment_table[..40], numbers(&[3, 2, 1, 0, 1]));
        assert_eq!(
            returned.segment_table[40..],
            SEGMENT_PATTERN.bytes(49)[40..]
        );
    }

    #[test]
    fn refused_file_writes_nothing() {
        for (plant, segment, refusal, place) in [(63, 40, 14, 8), (64, 39, 15, 5), (0, 0, 14, 8)] {
            let returned = left_by(&SMALLEST, plant, segment);
            let verdict = format!("refusal {refusal}, place {place} and offset 10");
            assert_eq!(returned.verdict.to_string(), verdict);
            assert_eq!(returned.plant_table, PLANT_PATTERN.bytes(plant));
            assert_eq!(returned.segment_table, SEGMENT_PATTERN.bytes(segment));
        }
    }

    #[test]
    fn answer_is_refusal_place_offset_and_both_tables() {
        // Plant 1 exports 300 kg, in two bytes, and starts at no segment.
        let returned = left_by(&[1, 1, 1, 0, 0xAC, 0x02, 0], 2, 1);
        let expected = [
            &[6, 0, 0, 0][..],
            &[5, 0, 0, 0, 0, 0, 0, 0],
            &[6, 0, 0, 0, 0, 0, 0, 0],
            &[90, 107],
            &[165],
        ];
        assert_eq!(returned.bytes(), expected.concat());
        assert_eq!(returned.length_in(&[0; 30]), 23);
        assert_eq!(returned.length_in(&[0; 22]), 22);
        assert_eq!(returned.label(), "R6");
        let accepted = left_by(&whole_period(), 128, 80);
        assert_eq!(accepted.label(), "A");
    }

    #[test]
    fn differences_name_what_differs() {
        let returned = left_by(&[0x01], 2, 1);
        let mut came = returned.bytes();
        came[0] = 2;
        assert_eq!(
            returned.difference(&came),
            "expected refusal 1, place 1 and offset 1, came refusal 2, place 1 and offset 1"
        );
        came[0] = 1;
        came[21] = 0;
        came[22] = 0xFF;
        assert_eq!(
            returned.difference(&came),
            "plant table first differs at byte 1: expected 6B, came 00; \
             segment table first differs at byte 0: expected A5, came FF"
        );
        assert_eq!(
            returned.difference(&came[..22]),
            "expected refusal 1, place 1 and offset 1, came only 22 of 23 bytes"
        );
        assert_eq!(
            returned.difference(&[]),
            "expected refusal 1, place 1 and offset 1, came no answer"
        );
    }
}
