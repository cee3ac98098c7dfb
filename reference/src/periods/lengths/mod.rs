//! Small periods with numbers of every length, and how they are refused: the same number of the
//! file is at another byte in each of them.

mod accounts;
pub mod reading;

use super::accounts::{account, Tables};
use super::case::PeriodCase;
use super::classes::{CAPTURED_FOSSIL, ELECTRICITY, GRAMS_OF_A_KG};
use super::outflows::choose_outflows;
use super::records::{Line, Owner, Period, Plant, Segment};
use crate::numbers::lengths::{numbers_by_turns, Lengths};
use crate::numbers::number::LIMIT;
use accounts::refused_by_accounts;
use reading::refused_by_reading;
use std::collections::BTreeMap;

/// How many plants and segments there are.
const PLANTS: usize = 2;
const SEGMENTS: usize = 3;

/// Every refusal of such periods, first those of reading and then those of the accounts.
pub fn refused_cases() -> Vec<PeriodCase> {
    let by_reading = refused_by_reading().into_iter().map(with_just_enough_room);
    by_reading.chain(refused_by_accounts()).collect()
}

/// So many of the files for each reason why they are refused, taken from all of them evenly. No
/// table is too short, and files that are accepted then are left out.
pub fn some_for_each_reason(files: Vec<Vec<u8>>, each: usize) -> Vec<Vec<u8>> {
    let mut by_reason: BTreeMap<u8, Vec<Vec<u8>>> = BTreeMap::new();
    for file in files {
        if let Err(refused) = account(&file, Tables::LARGE_ENOUGH) {
            by_reason
                .entry(refused.reason as u8)
                .or_default()
                .push(file);
        }
    }
    let some = by_reason.into_values().flat_map(|files| {
        let step = files.len() / each;
        files.into_iter().step_by(step).take(each)
    });
    some.collect()
}

/// The file with tables that just hold the rows of such a period.
fn with_just_enough_room(file: Vec<u8>) -> PeriodCase {
    PeriodCase {
        file,
        tables: Tables::just_for(PLANTS, SEGMENTS),
    }
}

/// A period whose numbers have these lengths by turns, as far as their fields allow it. It is
/// accepted: two plants on branches that meet at the store lose nothing, and no line has grams.
pub fn period_of(lengths: Lengths, lines: usize) -> Period {
    let mut number = numbers_by_turns(lengths);
    let mut period = Period {
        plants: (1..=PLANTS)
            .map(|own| Plant {
                exported: number(LIMIT),
                first_segment: own,
                fraction: number(Plant::WHOLE_FRACTION),
            })
            .collect(),
        segments: (1..=SEGMENTS).map(segment_to_store).collect(),
        lines: (0..lines)
            .map(|index| line_without_grams(index, &mut number))
            .collect(),
    };
    choose_outflows(&mut period, |_, inflow| inflow);
    period
}

/// A segment that leads to the store, or the store, which is the last; nothing comes out yet.
fn segment_to_store(own: usize) -> Segment {
    let (kind, next) = if own < SEGMENTS {
        (*Segment::KINDS.start(), SEGMENTS)
    } else {
        (Segment::STORE, 0)
    };
    Segment {
        kind,
        outflow: 0,
        next,
    }
}

/// How many sorts of lines there are.
const SORTS_OF_LINES: usize = 5;

/// A line of each sort by turns: of a plant and of the store without factor, of both without
/// quantity, and nothing captured by the plant.
fn line_without_grams(index: usize, number: &mut impl FnMut(u64) -> u64) -> Line {
    let (plant, store) = (Owner::Plant(PLANTS), Owner::Segment(SEGMENTS));
    let any_factor = *Line::FACTORS.end();
    let (owner, class, quantity, factor) = match index % SORTS_OF_LINES {
        0 => (plant, ELECTRICITY, number(LIMIT), 0),
        1 => (store, ELECTRICITY, number(LIMIT), 0),
        2 => (plant, ELECTRICITY, 0, number(any_factor)),
        3 => (store, ELECTRICITY, 0, number(any_factor)),
        _ => (plant, CAPTURED_FOSSIL, 0, GRAMS_OF_A_KG),
    };
    Line {
        owner,
        class,
        quantity,
        factor,
    }
}

#[cfg(test)]
mod tests {
    use super::*;
    use crate::numbers::lengths::EACH_LENGTHS;
    use crate::numbers::writing::write_numbers;
    use std::collections::BTreeSet;

    /// The bytes at which the number at this place starts, in the periods of all lengths.
    fn bytes_of(place: usize) -> BTreeSet<usize> {
        let periods = EACH_LENGTHS.map(|lengths| period_of(lengths, 3).numbers());
        periods
            .iter()
            .map(|numbers| write_numbers(&numbers[..place]).len())
            .collect()
    }

    #[test]
    fn periods_are_accepted() {
        for lengths in EACH_LENGTHS {
            for lines in [0, 1, 5, 128] {
                let file = write_numbers(&period_of(lengths, lines).numbers());
                let rows = account(&file, Tables::LARGE_ENOUGH);
                assert!(rows.is_ok(), "{rows:?}");
            }
        }
    }

    #[test]
    fn some_files_are_taken_for_each_reason() {
        let mut numbers = Vec::new();
        let files = refused_cases().into_iter().map(|case| case.file);
        for file in some_for_each_reason(files.collect(), 2) {
            let refused = account(&file, Tables::LARGE_ENOUGH).expect_err("the file is refused");
            numbers.push(refused.reason as u8);
        }
        let refusals = (1..=13).chain([16]);
        let expected: Vec<u8> = refusals.flat_map(|number| [number, number]).collect();
        assert_eq!(numbers, expected);
    }

    #[test]
    fn numbers_are_at_many_bytes() {
        assert_eq!(bytes_of(4), BTreeSet::from([4]), "behind the header");
        assert_eq!(bytes_of(5), BTreeSet::from([5, 6, 7, 8, 9]));
        for place in 6..=34 {
            assert!(bytes_of(place).len() >= 5, "{place}");
        }
    }

    #[test]
    fn last_number_can_be_long() {
        let numbers = period_of(&[5], 3).numbers();
        assert_eq!(numbers.len(), 34);
        assert_eq!(write_numbers(&numbers[33..]).len(), 5);
    }
}
