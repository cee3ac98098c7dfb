//! Sheets of a full year: as many days as there can be.

use super::meter::Meter::{Moves, Shows};
use super::meter::{readings_of, STUCK, STUCK_OTHERWISE};
use crate::numbers::number::LIMIT;
use crate::sheets::sheet::Sheet;

/// The days of a full year.
pub const YEAR: usize = Sheet::MOST_DAYS as usize;

/// A year of every sort: sound, stuck at its start, inside and at its end, dry, and at the largest
/// reading.
pub fn years() -> Vec<Vec<u64>> {
    vec![
        readings_of(&[(YEAR, Moves)]),
        readings_of(&[(99, Moves), (60, Shows(STUCK)), (YEAR - 159, Moves)]),
        readings_of(&[(60, Shows(STUCK)), (YEAR - 60, Moves)]),
        readings_of(&[(YEAR - 60, Moves), (60, Shows(STUCK))]),
        readings_of(&[(YEAR, Shows(STUCK))]),
        readings_of(&[(YEAR, Shows(0))]),
        readings_of(&[(YEAR - 1, Shows(0)), (1, Moves)]),
        readings_of(&[(1, Moves), (YEAR - 1, Shows(0))]),
        readings_of(&[(183, Shows(0)), (183, Shows(STUCK))]),
        readings_of(&[(183, Shows(STUCK)), (183, Shows(STUCK_OTHERWISE))]),
        readings_of(&[(182, Shows(STUCK)), (184, Shows(STUCK_OTHERWISE))]),
        mixed_year(),
        largest_year(),
        changing_largest_year(),
    ]
}

/// A year of small readings that moves, stands still and is dry by turns; two of its runs are the
/// longest.
pub fn mixed_year() -> Vec<u64> {
    readings_of(&[
        (29, Moves),
        (21, Shows(STUCK)),
        (50, Moves),
        (30, Shows(0)),
        (70, Moves),
        (21, Shows(STUCK_OTHERWISE)),
        (1, Shows(0)),
        (20, Shows(STUCK_OTHERWISE)),
        (117, Moves),
        (7, Shows(STUCK)),
    ])
}

/// The year whose every reading is the largest one.
pub fn largest_year() -> Vec<u64> {
    vec![LIMIT; YEAR]
}

/// The year whose readings are the largest one and the next smaller one by turns, and the same for
/// two days now and then.
pub fn changing_largest_year() -> Vec<u64> {
    const SMALLER: u64 = LIMIT - 1;
    let turn = [LIMIT, SMALLER, SMALLER];
    turn.into_iter().cycle().take(YEAR).collect()
}

#[cfg(test)]
mod tests {
    use super::*;
    use crate::sheets::figures::figures_of;
    use crate::sheets::sheet::sheet_of;

    fn figures(readings: &[u64]) -> String {
        let figures = figures_of(&sheet_of(readings)).expect("the sheet is whole");
        figures.to_string()
    }

    #[test]
    fn every_year_is_a_full_one() {
        assert!(years().iter().all(|readings| readings.len() == 366));
    }

    #[test]
    fn longest_runs_are_where_they_should_be() {
        let years = years();
        let ends: Vec<String> = years.iter().map(|readings| figures(readings)).collect();
        let expected = [
            " 0 0 1 1",
            " 59 0 60 100",
            " 59 0 60 1",
            " 59 0 60 307",
            " 365 0 366 1",
            "0 0 365 0 0",
            " 0 364 1 366",
            " 0 364 1 1",
            " 182 182 183 184",
            " 364 0 183 1",
            " 364 0 184 183",
            " 65 29 21 30",
            "1464000000000 365 0 366 1",
            "1463999999756 122 0 2 2",
        ];
        assert_eq!(ends.len(), expected.len());
        for (figures, end) in ends.iter().zip(expected) {
            assert!(figures.ends_with(end), "{figures} for {end}");
        }
    }

    #[test]
    fn mixed_year_has_one_byte_for_each_reading() {
        assert_eq!(sheet_of(&mixed_year()).len(), 2 + 366);
        assert_eq!(sheet_of(&largest_year()).len(), 2 + 5 * 366);
        assert_eq!(sheet_of(&changing_largest_year()).len(), 2 + 5 * 366);
    }
}
