//! What a call leaves with the historian: the refusal, its place and its offset, then the five
//! figures.

use crate::frames::split;
use crate::questions::Answer;
use crate::sheets::figures::{figures_of, Figures};
use crate::verdict::Verdict;

/// Bytes of a figure, least significant first.
const FIGURE_BYTES: usize = 8;
/// Before the call all bytes of a figure are this plus its number, counted from 1, so that a figure
/// that the call leaves alone is recognised.
const BYTE_BEFORE: u8 = 0xB0;

/// The figures as they are before the call.
fn figures_before() -> [u64; Figures::COUNT] {
    let mut figures = [0; Figures::COUNT];
    for (number, figure) in (1..).zip(&mut figures) {
        *figure = u64::from_le_bytes([BYTE_BEFORE + number; FIGURE_BYTES]);
    }
    figures
}

/// What a call leaves.
#[derive(Debug, PartialEq, Eq)]
pub struct Left {
    verdict: Verdict,
    figures: [u64; Figures::COUNT],
}

impl Left {
    /// What the call with this file must leave.
    pub fn by(file: &[u8]) -> Self {
        let answered = figures_of(file);
        Left {
            verdict: Verdict::of(&answered),
            figures: answered.map_or_else(|_| figures_before(), |figures| figures.numbers()),
        }
    }

    /// What came for this answer, taken apart; nothing if it is cut short.
    fn taken_apart(came: &[u8]) -> Option<Left> {
        let (verdict, mut rest) = Verdict::first_in(came)?;
        let mut figures = [0; Figures::COUNT];
        for figure in &mut figures {
            let (bytes, after) = split(rest, FIGURE_BYTES)?;
            *figure = u64::from_le_bytes(bytes.try_into().ok()?);
            rest = after;
        }
        Some(Left { verdict, figures })
    }

    /// What came beside this answer, each part that differs in words.
    fn differences(&self, came: &Left) -> Vec<String> {
        let mut differences = Vec::new();
        differences.extend(self.verdict.difference(came.verdict));
        let figures = self.figures.iter().zip(&came.figures);
        for (index, (&expected, &came)) in figures.enumerate() {
            if expected != came {
                let (expected, came) = (in_words(index, expected), in_words(index, came));
                let number = index + 1;
                differences.push(format!("figure {number}: expected {expected}, came {came}"));
            }
        }
        differences
    }
}

/// The figure at an index as a number, unless it is as before the call.
fn in_words(index: usize, figure: u64) -> String {
    if figure == figures_before()[index] {
        "what was there".to_string()
    } else {
        figure.to_string()
    }
}

impl Answer for Left {
    fn label(&self) -> String {
        self.verdict.label()
    }

    fn bytes(&self) -> Vec<u8> {
        let mut bytes = self.verdict.bytes();
        bytes.extend(self.figures.iter().flat_map(|figure| figure.to_le_bytes()));
        bytes
    }

    fn length_in(&self, output: &[u8]) -> usize {
        self.bytes().len().min(output.len())
    }

    fn difference(&self, came: &[u8]) -> String {
        match Left::taken_apart(came) {
            Some(came) => self.differences(&came).join("; "),
            None => self.verdict.cut_short(came.len(), self.bytes().len()),
        }
    }
}

#[cfg(test)]
mod tests {
    use super::*;

    #[test]
    fn accepted_sheet_leaves_its_figures() {
        let left = Left::by(&[0x03, 0xAC, 0x02, 0x09, 0x09]);
        let expected = [
            &[0; 20][..],
            &[62, 1, 0, 0, 0, 0, 0, 0],
            &[1, 0, 0, 0, 0, 0, 0, 0],
            &[0, 0, 0, 0, 0, 0, 0, 0],
            &[2, 0, 0, 0, 0, 0, 0, 0],
            &[2, 0, 0, 0, 0, 0, 0, 0],
        ];
        assert_eq!(left.bytes(), expected.concat());
        assert_eq!(left.label(), "A");
        assert_eq!(left.length_in(&[0; 70]), 60);
        assert_eq!(left.length_in(&[0; 59]), 59);
    }

    #[test]
    fn refused_file_leaves_the_figures_alone() {
        let left = Left::by(&[0x02, 0xAC, 0x02]);
        let expected = [
            &[1, 0, 0, 0][..],
            &[2, 0, 0, 0, 0, 0, 0, 0],
            &[3, 0, 0, 0, 0, 0, 0, 0],
            &[0xB1; 8],
            &[0xB2; 8],
            &[0xB3; 8],
            &[0xB4; 8],
            &[0xB5; 8],
        ];
        assert_eq!(left.bytes(), expected.concat());
        assert_eq!(left.label(), "R1");
    }

    #[test]
    fn differences_name_what_differs() {
        let left = Left::by(&[0x02, 0x05, 0x05]);
        let mut came = left.bytes();
        came[28] = 7;
        came[52..].fill(0xB5);
        assert_eq!(
            left.difference(&came),
            "figure 2: expected 1, came 7; figure 5: expected 1, came what was there"
        );
        let refused = Left::by(&[0x02, 0x05]);
        let mut came = refused.bytes();
        came[0] = 9;
        came[20..28].fill(0);
        assert_eq!(
            refused.difference(&came),
            "expected refusal 1, place 2 and offset 2, came refusal 9, place 2 and offset 2; \
             figure 1: expected what was there, came 0"
        );
        assert_eq!(
            refused.difference(&came[..59]),
            "expected refusal 1, place 2 and offset 2, came only 59 of 60 bytes"
        );
        assert_eq!(
            refused.difference(&[]),
            "expected refusal 1, place 2 and offset 2, came no answer"
        );
    }
}
