//! Counts at and past their limits, with too few readings after them, just enough, or too many.

use super::meter::readings_of;
use super::meter::Meter::Moves;
use super::years::YEAR;
use crate::numbers::number::{LIMIT, MORE_FOLLOW, MOST_GROUPS};
use crate::numbers::writing::write_numbers;
use std::collections::BTreeSet;

/// The most days there can be.
const MOST: u64 = YEAR as u64;
/// What a narrow number of one or two bytes turns over at.
const BYTE_TURNS: u64 = 1 << 8;
const TWO_BYTES_TURN: u64 = 1 << 16;

/// Counts at the limits and where numbers get longer or turn over: some of them would be allowed
/// if only their lowest bytes were looked at.
const COUNTS: [u64; 18] = [
    0,
    1,
    2,
    127,
    128,
    BYTE_TURNS,
    BYTE_TURNS + 1,
    MOST - 1,
    MOST,
    MOST + 1,
    MOST + 2,
    2 * BYTE_TURNS + 1,
    16_384,
    TWO_BYTES_TURN,
    TWO_BYTES_TURN + 1,
    TWO_BYTES_TURN + MOST,
    1 << 31,
    LIMIT,
];

/// What comes after a count that is not allowed, though nothing of it may be looked at.
const AFTER_THE_COUNT: [&[u8]; 3] = [
    &[MORE_FOLLOW],
    &[MORE_FOLLOW, 0],
    &[MORE_FOLLOW; MOST_GROUPS],
];
/// Counts that are not allowed.
const NOT_ALLOWED: [u64; 3] = [0, MOST + 1, LIMIT];

/// Each count with each number of readings beside it.
pub fn around_limits() -> Vec<Vec<u8>> {
    let mut files = Vec::new();
    for count in COUNTS {
        let beside = readings_beside(count).into_iter();
        files.extend(beside.map(|readings| counted(count, readings)));
    }
    for count in NOT_ALLOWED {
        let after = AFTER_THE_COUNT.into_iter();
        files.extend(after.map(|after| [&write_numbers(&[count])[..], after].concat()));
    }
    files
}

/// Every count up to some past the most, each with as many readings, one fewer and one more.
pub fn every_count() -> Vec<Vec<u8>> {
    const PAST_THE_MOST: u64 = 20;
    let mut files = Vec::new();
    for count in 0..=MOST + PAST_THE_MOST {
        let just = count as usize;
        let beside = BTreeSet::from([just.saturating_sub(1), just, just + 1]);
        files.extend(beside.into_iter().map(|readings| counted(count, readings)));
    }
    files
}

/// How many readings come after the count: none, one, a year, one more; and as many as it says,
/// one fewer and one more, unless it says far too many.
fn readings_beside(count: u64) -> BTreeSet<usize> {
    let mut beside = BTreeSet::from([0, 1, YEAR, YEAR + 1]);
    if count < 2 * MOST {
        let just = count as usize;
        beside.extend([just.saturating_sub(1), just, just + 1]);
    }
    beside
}

/// The file of a count and `readings` readings.
fn counted(count: u64, readings: usize) -> Vec<u8> {
    let readings = readings_of(&[(readings, Moves)]);
    write_numbers(&[vec![count], readings].concat())
}

#[cfg(test)]
mod tests {
    use super::*;
    use crate::sheets::figures::figures_of;
    use crate::sheets::figures::printed;

    fn printed_for(count: u64, readings: usize) -> String {
        printed(&figures_of(&counted(count, readings)))
    }

    #[test]
    fn count_and_readings_decide_together() {
        assert_eq!(printed_for(0, 1), "R 5 0 0\n");
        assert_eq!(printed_for(1, 0), "R 1 1 1\n");
        assert_eq!(printed_for(1, 1), "20 0 0 1 1\n");
        assert_eq!(printed_for(1, 2), "R 9 2 2\n");
        assert_eq!(printed_for(MOST, YEAR - 1), "R 1 366 367\n");
        assert_eq!(printed_for(MOST, YEAR + 1), "R 9 367 368\n");
        assert_eq!(printed_for(MOST + 1, YEAR + 1), "R 5 0 0\n");
        assert_eq!(printed_for(TWO_BYTES_TURN + 1, 1), "R 5 0 0\n");
    }

    #[test]
    fn every_count_up_to_the_most_is_accepted_once() {
        let accepted = |files: &[Vec<u8>]| {
            let answers = files.iter().map(|file| figures_of(file));
            answers.filter(Result::is_ok).count()
        };
        assert_eq!(accepted(&every_count()), 366);
        let allowed = COUNTS.iter().filter(|&&count| (1..=MOST).contains(&count));
        assert_eq!(accepted(&around_limits()), allowed.count());
    }

    #[test]
    fn readings_after_a_count_are_around_it() {
        let beside: Vec<usize> = readings_beside(128).into_iter().collect();
        assert_eq!(beside, [0, 1, 127, 128, 129, 366, 367]);
        let beside: Vec<usize> = readings_beside(LIMIT).into_iter().collect();
        assert_eq!(beside, [0, 1, 366, 367]);
    }
}
