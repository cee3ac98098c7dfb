//! Readings of every size beside such as differ in one bit only.

use super::years::YEAR;
use crate::numbers::number::LIMIT;
use crate::sheets::sheet::sheet_of;
use std::collections::BTreeSet;

/// Bits of the largest reading.
const BITS: u32 = u64::BITS - LIMIT.leading_zeros();

/// Each reading of some size with each that differs in one bit, in a few days that tell them
/// apart; and full years of each reading alone.
pub fn readings_of_every_size() -> Vec<Vec<u8>> {
    let mut files = Vec::new();
    for reading in sizes() {
        for bit in 0..BITS {
            let other = reading ^ (1 << bit);
            if other <= LIMIT {
                files.extend(few_days_of(reading, other));
            }
        }
        files.push(sheet_of(&[reading; YEAR]));
    }
    files
}

/// The powers of two and the largest reading, with those next to them.
fn sizes() -> BTreeSet<u64> {
    let edges = (0..BITS).map(|bit| 1 << bit).chain([LIMIT]);
    let sizes = edges.flat_map(|edge: u64| edge - 1..=edge + 1);
    sizes.filter(|&reading| reading <= LIMIT).collect()
}

/// Few days of two readings, equal ones side by side or not.
fn few_days_of(reading: u64, other: u64) -> [Vec<u8>; 5] {
    [
        sheet_of(&[reading, other]),
        sheet_of(&[reading, reading, other]),
        sheet_of(&[reading, other, other]),
        sheet_of(&[reading, 0, other, reading]),
        sheet_of(&[other, reading, reading, other, other, other]),
    ]
}

#[cfg(test)]
mod tests {
    use super::*;
    use crate::sheets::figures::figures_of;

    #[test]
    fn sizes_reach_from_zero_to_the_largest() {
        let sizes = sizes();
        for reading in [0, 1, 127, 128, 255, 256, 1 << 31, LIMIT - 1, LIMIT] {
            assert!(sizes.contains(&reading), "{reading}");
        }
        assert_eq!(sizes.iter().max(), Some(&LIMIT));
    }

    #[test]
    fn one_bit_tells_days_apart() {
        let figures = |file: &[u8]| {
            let figures = figures_of(file).expect("the sheet is whole");
            figures.to_string()
        };
        let sheets = few_days_of(256, 0);
        let figures: Vec<String> = sheets.iter().map(|sheet| figures(sheet)).collect();
        assert_eq!(
            figures,
            [
                "256 0 0 1 1",
                "512 1 0 2 1",
                "256 0 1 1 1",
                "512 0 1 1 1",
                "512 1 2 2 2",
            ]
        );
    }

    #[test]
    fn every_sheet_is_accepted() {
        assert!(readings_of_every_size()
            .iter()
            .all(|file| figures_of(file).is_ok()));
    }
}
