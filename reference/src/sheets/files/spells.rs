//! Sheets on which a meter stands still for a spell: of every length, at every place, one spell or
//! two.

use super::meter::Meter::{self, Moves, Shows};
use super::meter::{readings_of, STUCK, STUCK_OTHERWISE};
use super::years::YEAR;
use crate::sheets::sheet::sheet_of;
use std::collections::BTreeSet;

/// The days of a sheet on which every spell there can be is tried.
const SOME_DAYS: usize = 40;
/// Days on which the spells of a full year start, besides those at its end.
const STARTS: [usize; 6] = [1, 2, 3, 100, 183, 300];

/// One spell, stuck or dry: every one of some days, and of a full year every length on many days.
pub fn one_spell() -> Vec<Vec<u8>> {
    let mut files = Vec::new();
    for reading in [STUCK, 0] {
        for days in 1..=SOME_DAYS {
            for first in 1..=SOME_DAYS - days + 1 {
                files.push(with_one_spell(SOME_DAYS, first, days, reading));
            }
        }
        for days in 1..=YEAR {
            for first in starts_in_a_year(days) {
                files.push(with_one_spell(YEAR, first, days, reading));
            }
        }
    }
    files
}

/// The days on which a spell of `days` days starts.
fn starts_in_a_year(days: usize) -> BTreeSet<usize> {
    let last_start = YEAR - days + 1;
    let mut starts: BTreeSet<usize> = STARTS.into_iter().collect();
    starts.extend([last_start, last_start - 1]);
    starts.retain(|start| (1..=last_start).contains(start));
    starts
}

/// A sheet of `all_days` days with one spell that starts on a day, counted from 1.
fn with_one_spell(all_days: usize, first: usize, days: usize, reading: u64) -> Vec<u8> {
    let before = first - 1;
    let after = all_days - before - days;
    sheet_of(&readings_of(&[
        (before, Moves),
        (days, Shows(reading)),
        (after, Moves),
    ]))
}

/// What the meter does in two spells, and between them: its first spell, between, its second.
const TWO_SPELLS: [[Meter; 3]; 7] = [
    [Shows(STUCK), Moves, Shows(STUCK)],
    [Shows(STUCK), Moves, Shows(STUCK_OTHERWISE)],
    [Shows(STUCK), Shows(0), Shows(STUCK)],
    [Shows(STUCK), Shows(0), Shows(STUCK_OTHERWISE)],
    [Shows(0), Moves, Shows(STUCK)],
    [Shows(STUCK), Moves, Shows(0)],
    [Shows(0), Moves, Shows(0)],
];
/// The longest spell if there are two on a small sheet.
const LONGEST_OF_TWO: usize = 12;
/// The most days before two spells, between and after them.
const MOST_BEFORE: usize = 2;
const MOST_BETWEEN: usize = 2;
const MOST_AFTER: usize = 1;

/// Two spells of every two lengths, with few days or none before, between and after them.
pub fn two_spells() -> Vec<Vec<u8>> {
    let mut files = Vec::new();
    for doing in TWO_SPELLS {
        for first in 1..=LONGEST_OF_TWO {
            for second in 1..=LONGEST_OF_TWO {
                for between in 0..=MOST_BETWEEN {
                    files.extend(amid_few_days(doing, [first, between, second]));
                }
            }
        }
    }
    files
}

/// Two spells with what is between them, each number of few days before and after them.
fn amid_few_days(doing: [Meter; 3], days: [usize; 3]) -> Vec<Vec<u8>> {
    let mut files = Vec::new();
    for before in 0..=MOST_BEFORE {
        for after in 0..=MOST_AFTER {
            files.push(amid(before, doing, days, after));
        }
    }
    files
}

/// Two spells with what is between them, and as many days before and after them as given.
fn amid(before: usize, doing: [Meter; 3], days: [usize; 3], after: usize) -> Vec<u8> {
    let [first, between, second] = doing;
    let [first_days, between_days, second_days] = days;
    sheet_of(&readings_of(&[
        (before, Moves),
        (first_days, first),
        (between_days, between),
        (second_days, second),
        (after, Moves),
    ]))
}

/// Days between the two spells of a full year.
const BETWEEN_IN_A_YEAR: [usize; 2] = [0, 1];
/// The longest of two spells of about the same length for which a full year has room.
const LONGEST_OF_TWO_IN_A_YEAR: usize = 182;

/// Full years of two spells: of every two lengths that make a year, with a day between them or
/// none; and of about the same length, at the start and at the end of the year.
pub fn two_spells_in_a_year() -> Vec<Vec<u8>> {
    let mut files = Vec::new();
    for doing in TWO_SPELLS {
        for between in BETWEEN_IN_A_YEAR {
            for first in 0..=YEAR - between {
                let second = YEAR - between - first;
                files.push(amid(0, doing, [first, between, second], 0));
            }
        }
        for days in 1..=LONGEST_OF_TWO_IN_A_YEAR {
            for (first, second) in [(days, days), (days, days + 1), (days + 1, days)] {
                let between = YEAR - first - second;
                files.push(amid(0, doing, [first, between, second], 0));
            }
        }
    }
    files
}

#[cfg(test)]
mod tests {
    use super::*;
    use crate::sheets::figures::figures_of;

    /// The longest run and its first day.
    fn longest(file: &[u8]) -> (u64, u64) {
        let figures = figures_of(file).expect("the sheet is whole");
        (figures.longest, figures.first)
    }

    #[test]
    fn one_spell_is_found_where_it_is() {
        assert_eq!(longest(&with_one_spell(40, 7, 5, STUCK)), (5, 7));
        assert_eq!(longest(&with_one_spell(40, 36, 5, STUCK)), (5, 36));
        assert_eq!(longest(&with_one_spell(40, 1, 5, 0)), (1, 6));
        assert_eq!(longest(&with_one_spell(366, 1, 366, STUCK)), (366, 1));
        assert_eq!(longest(&with_one_spell(366, 1, 366, 0)), (0, 0));
    }

    #[test]
    fn spells_start_on_many_days() {
        let starts: Vec<usize> = starts_in_a_year(10).into_iter().collect();
        assert_eq!(starts, [1, 2, 3, 100, 183, 300, 356, 357]);
        let starts: Vec<usize> = starts_in_a_year(366).into_iter().collect();
        assert_eq!(starts, [1]);
    }

    #[test]
    fn earlier_of_two_equal_spells_is_found() {
        let [alike, different, ..] = TWO_SPELLS;
        assert_eq!(longest(&amid(2, alike, [4, 1, 4], 1)), (4, 3));
        assert_eq!(longest(&amid(2, alike, [4, 1, 5], 1)), (5, 8));
        assert_eq!(longest(&amid(2, alike, [4, 0, 5], 1)), (9, 3));
        assert_eq!(longest(&amid(2, different, [4, 0, 4], 1)), (4, 3));
        assert_eq!(longest(&amid(2, different, [4, 0, 5], 1)), (5, 7));
    }

    #[test]
    fn years_of_two_spells_are_full_ones() {
        for file in two_spells_in_a_year() {
            assert_eq!(file.len(), 2 + 366);
        }
    }

    #[test]
    fn sizes_of_the_suites() {
        assert_eq!(two_spells().len(), 7 * 12 * 12 * 3 * 3 * 2);
        assert_eq!(two_spells_in_a_year().len(), 7 * (367 + 366 + 3 * 182));
        let of_some_days = 2 * (40 * 41 / 2);
        assert!(one_spell().len() > of_some_days + 2 * 5 * 300);
    }
}
