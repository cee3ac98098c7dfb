//! All sheets of few days with small readings.

use crate::sheets::sheet::sheet_of;

/// The files of all sheets of one to `most_days` days, with readings up to the largest.
pub fn every_sheet(most_days: u32, largest: usize) -> Vec<Vec<u8>> {
    let sheets = readings_of_few_days(most_days, largest);
    sheets.iter().map(|readings| sheet_of(readings)).collect()
}

/// The readings of all such sheets.
pub fn readings_of_few_days(most_days: u32, largest: usize) -> Vec<Vec<u64>> {
    let choices = largest + 1;
    let mut sheets = Vec::new();
    for days in 1..=most_days {
        let numbered = 0..choices.pow(days);
        sheets.extend(numbered.map(|number| digits(number, choices, days)));
    }
    sheets
}

/// The digits of a number to a base, lowest first.
fn digits(number: usize, base: usize, count: u32) -> Vec<u64> {
    let mut rest = number;
    let mut digits = Vec::new();
    for _ in 0..count {
        digits.push((rest % base) as u64);
        rest /= base;
    }
    digits
}

#[cfg(test)]
mod tests {
    use super::*;
    use std::collections::BTreeSet;

    #[test]
    fn sheets_of_few_days_are_all_there_once() {
        let sheets = every_sheet(4, 2);
        assert_eq!(sheets.len(), 3 + 9 + 27 + 81);
        let different: BTreeSet<&Vec<u8>> = sheets.iter().collect();
        assert_eq!(different.len(), sheets.len());
        for sheet in [&[1, 0][..], &[1, 2], &[2, 0, 1], &[4, 2, 2, 2, 2]] {
            assert!(different.contains(&sheet.to_vec()), "{sheet:?}");
        }
    }
}
