//! Small sheets whose answers are worked out by hand.

use super::figures::Figures;
use super::sheet::sheet_of;
use crate::numbers::number::LIMIT;

/// Readings, and the figures of their sheet.
const ACCEPTED: [(&[u64], [u64; Figures::COUNT]); 18] = [
    (&[7], [7, 0, 0, 1, 1]),
    (&[0], [0, 0, 0, 0, 0]),
    (&[LIMIT], [4_000_000_000, 0, 0, 1, 1]),
    (&[5, 5], [10, 1, 0, 2, 1]),
    (&[0, 0], [0, 0, 1, 0, 0]),
    (&[5, 0], [5, 0, 0, 1, 1]),
    (&[0, 5], [5, 0, 0, 1, 2]),
    (&[LIMIT, LIMIT], [8_000_000_000, 1, 0, 2, 1]),
    (&[LIMIT, LIMIT - 1], [7_999_999_999, 0, 0, 1, 1]),
    (&[5, 0, 5], [10, 0, 0, 1, 1]),
    (&[1, 2, 1, 2], [6, 0, 0, 1, 1]),
    (&[3, 3, 4, 4], [14, 2, 0, 2, 1]),
    (&[3, 4, 4, 3, 3], [17, 2, 0, 2, 2]),
    (&[5, 0, 0, 5, 5], [15, 1, 1, 2, 4]),
    (&[256, 0, 0, 65_536, 65_536], [131_328, 1, 1, 2, 4]),
    (&[9, 9, 8, 9, 9, 9], [53, 3, 0, 3, 4]),
    (&[128, 128, 128, 127, 127, 0], [638, 3, 0, 3, 1]),
    (&[0, 0, 0, 6, 6, 0, 0, 0, 0, 6, 6, 6], [30, 3, 5, 3, 10]),
];

/// Files that are no sheet, and what they are refused with.
const REFUSED: [(&[u8], &str); 26] = [
    (&[], "R 1 0 0"),
    (&[0x80], "R 1 0 0"),
    (&[0x01], "R 1 1 1"),
    (&[0xAC, 0x02], "R 1 1 2"),
    (&[0x02, 0x05], "R 1 2 2"),
    (&[0x02, 0x05, 0x85], "R 1 2 2"),
    (&[0x02, 0x85, 0x01], "R 1 2 3"),
    (&[0x02, 0x85, 0x01, 0x85, 0x80, 0x80], "R 1 2 3"),
    (&[0x80, 0x00], "R 2 0 0"),
    (&[0x81, 0x00, 0x05], "R 2 0 0"),
    (&[0x01, 0x85, 0x00], "R 2 1 1"),
    (&[0x02, 0x80, 0x80, 0x01, 0x85, 0x00], "R 2 2 4"),
    (&[0x80, 0x80, 0x80, 0x80, 0x80], "R 3 0 0"),
    (&[0x81, 0xD0, 0xAC, 0xF3, 0x0E], "R 3 0 0"),
    (&[0x01, 0x81, 0xD0, 0xAC, 0xF3, 0x0E], "R 3 1 1"),
    (&[0x02, 0x05, 0xFF, 0xFF, 0xFF, 0xFF, 0x80], "R 3 2 2"),
    (
        &[
            0x02, 0x80, 0xD0, 0xAC, 0xF3, 0x0E, 0xFF, 0xFF, 0xFF, 0xFF, 0x80,
        ],
        "R 3 2 6",
    ),
    (&[0x00], "R 5 0 0"),
    (&[0x00, 0x80, 0x00], "R 5 0 0"),
    (&[0xEF, 0x02], "R 5 0 0"),
    (&[0x80, 0xD0, 0xAC, 0xF3, 0x0E], "R 5 0 0"),
    (&[0x01, 0x05, 0x00], "R 9 2 2"),
    (&[0x01, 0x05, 0x80], "R 9 2 2"),
    (&[0x02, 0x05, 0x05, 0x80, 0x00], "R 9 3 3"),
    (&[0x02, 0x85, 0x01, 0x85, 0x01, 0x00], "R 9 3 5"),
    (
        &[0x01, 0x80, 0xD0, 0xAC, 0xF3, 0x0E, 0x80, 0x80, 0x80],
        "R 9 2 6",
    ),
];

/// The files of all sheets worked out by hand, the accepted ones first.
pub fn worked_files() -> Vec<Vec<u8>> {
    let accepted = ACCEPTED.iter().map(|(readings, _)| sheet_of(readings));
    let refused = REFUSED.iter().map(|(file, _)| file.to_vec());
    accepted.chain(refused).collect()
}

#[cfg(test)]
mod tests {
    use super::*;
    use crate::sheets::figures::figures_of;

    #[test]
    fn accepted_sheets_have_the_figures_worked_out() {
        for (readings, figures) in ACCEPTED {
            let answered = figures_of(&sheet_of(readings)).expect("the sheet is whole");
            assert_eq!(answered.numbers(), figures, "{readings:?}");
        }
    }

    #[test]
    fn refused_files_have_the_refusal_worked_out() {
        for (file, expected) in REFUSED {
            let refused = figures_of(file).expect_err("the file is no sheet");
            assert_eq!(refused.to_string(), expected, "{file:02X?}");
        }
    }

    #[test]
    fn every_worked_sheet_is_a_file() {
        let files = worked_files();
        assert_eq!(files.len(), ACCEPTED.len() + REFUSED.len());
        assert_eq!(files[0], [0x01, 0x07]);
        assert_eq!(files[ACCEPTED.len()], []);
    }
}
