//! Gram totals, which are rounded up as a whole.

use super::full_size::{set_grams, through_all_at_limit, LINES, OWNERS_AT_ENDS};
use crate::periods::records::{Owner, Period};

/// The grams of each line if the owner has all lines: less than a kg and whole kg together,
/// and around a kg each.
const GRAMS_OF_ALL_LINES: [u64; 8] = [1, 2, 125, 126, 500, 999, 1000, 1001];
/// The grams of two lines: together less than a kg, a kg, and more.
const GRAMS_OF_TWO_LINES: [(u64, u64); 6] = [
    (1, 1),
    (500, 499),
    (500, 500),
    (500, 501),
    (999, 1001),
    (1, 1000),
];

/// Owners whose grams come in all lines, and in two.
pub fn once_a_total() -> Vec<Period> {
    let mut periods = Vec::new();
    for owner in OWNERS_AT_ENDS {
        periods.extend(GRAMS_OF_ALL_LINES.map(|grams| all_lines(owner, grams)));
        periods.extend(GRAMS_OF_TWO_LINES.map(|grams| first_and_last_line(owner, grams)));
    }
    periods
}

/// All lines are the owner's, of `grams` grams each.
fn all_lines(owner: Owner, grams: u64) -> Period {
    let mut period = through_all_at_limit();
    for line in 1..=LINES {
        set_grams(&mut period, line, owner, grams);
    }
    period
}

/// The first and the last line are the owner's, with these grams.
fn first_and_last_line(owner: Owner, (first, last): (u64, u64)) -> Period {
    let mut period = through_all_at_limit();
    set_grams(&mut period, 1, owner, first);
    set_grams(&mut period, LINES, owner, last);
    period
}

#[cfg(test)]
mod tests {
    use super::super::answers::rows;
    use super::*;

    /// What the owner emits in kg; plants are charged nothing here.
    fn emission(owner: Owner, period: &Period) -> u64 {
        let rows = rows(period);
        match owner {
            Owner::Plant(number) => rows.plants[number - 1].associated,
            Owner::Segment(number) => rows.segments[number - 1].emission,
        }
    }

    #[test]
    fn totals_of_all_lines_are_rounded_up_once() {
        for owner in OWNERS_AT_ENDS {
            for (grams, kg) in [(1, 1), (2, 2), (125, 64), (126, 65), (1001, 513)] {
                assert_eq!(emission(owner, &all_lines(owner, grams)), kg);
            }
        }
    }

    #[test]
    fn totals_of_two_lines_are_rounded_up_once() {
        let kg = [1, 1, 1, 2, 2, 2];
        for owner in OWNERS_AT_ENDS {
            for (grams, kg) in GRAMS_OF_TWO_LINES.into_iter().zip(kg) {
                assert_eq!(emission(owner, &first_and_last_line(owner, grams)), kg);
            }
        }
    }
}
