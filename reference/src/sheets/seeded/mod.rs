//! Seeded sheets: about half accepted, the others refused for every reason in turn.

mod damage;
mod habits;

use super::case::SheetCase;
use super::sheet::{sheet_of, Sheet};
use super::worked::worked_files;
use crate::seeded::Seeded;
use damage::{damaged, Damage};
use habits::{readings_by, Habit};
use std::ops::RangeInclusive;

/// How many days a sheet has.
#[derive(Clone, Copy, Debug)]
enum Size {
    Small,
    Middle,
    FullYear,
}

impl Size {
    /// The days of a sheet of this size.
    fn days(self) -> RangeInclusive<u64> {
        match self {
            Size::Small => 1..=6,
            Size::Middle => 7..=60,
            Size::FullYear => Sheet::MOST_DAYS..=Sheet::MOST_DAYS,
        }
    }
}

/// After this many sheets the sizes come again; it shares no factor with the counts of habits and
/// damages.
const TURNS_OF_SIZES: usize = 19;
/// Full years of these.
const FULL_TURNS: usize = 1;
/// Middle-size sheets of these.
const MIDDLE_TURNS: usize = 6;

/// The sheets worked out by hand, then seeded ones without end.
pub fn sheet_cases(seed: u64) -> impl Iterator<Item = SheetCase> {
    let files = worked_files().into_iter().chain(seeded_sheets(seed));
    files.map(SheetCase)
}

/// The files of seeded sheets without end.
pub fn seeded_sheets(seed: u64) -> impl Iterator<Item = Vec<u8>> {
    let mut seeded = Seeded::new(seed);
    (0..).map(move |turn| seeded_sheet(turn, &mut seeded))
}

/// The sheet whose turn it is: whole and damaged ones alternate, habits, damages and sizes go
/// round beside each other.
fn seeded_sheet(turn: usize, seeded: &mut Seeded) -> Vec<u8> {
    let round = turn / 2;
    let habit = Habit::EACH[round % Habit::EACH.len()];
    let readings = readings_of_size(habit, size_in_turn(turn), seeded);
    if turn % 2 == 0 {
        sheet_of(&readings)
    } else {
        let damage = Damage::EACH[round % Damage::EACH.len()];
        damaged(&Sheet { readings }, damage, seeded)
    }
}

/// The size whose turn it is.
fn size_in_turn(turn: usize) -> Size {
    match turn % TURNS_OF_SIZES {
        full if full < FULL_TURNS => Size::FullYear,
        middle if middle < FULL_TURNS + MIDDLE_TURNS => Size::Middle,
        _ => Size::Small,
    }
}

/// The readings by this habit for some days of this size.
fn readings_of_size(habit: Habit, size: Size, seeded: &mut Seeded) -> Vec<u64> {
    let days = seeded.within(size.days()) as usize;
    readings_by(habit, days, seeded)
}

#[cfg(test)]
mod tests {
    use super::*;
    use crate::questions::label_of;
    use crate::refusal::offsets_checked::assert_offset_of_number;
    use crate::refusal::Reason;
    use crate::sheets::figures::figures_of;
    use std::collections::{BTreeMap, BTreeSet};

    #[test]
    fn each_damage_is_refused_for_its_reason_at_every_size() {
        let mut seeded = Seeded::new(1);
        for (damage, reason) in [
            (Damage::CutShort, Reason::FileEnds),
            (Damage::NotShortest, Reason::NotShortest),
            (Damage::TooLarge, Reason::TooLarge),
            (Damage::CountOutside, Reason::Counts),
            (Damage::BytesAfter, Reason::BytesAfter),
        ] {
            for size in [Size::Small, Size::Middle, Size::FullYear] {
                for habit in Habit::EACH {
                    let readings = readings_of_size(habit, size, &mut seeded);
                    let file = damaged(&Sheet { readings }, damage, &mut seeded);
                    let refused = figures_of(&file).expect_err("the damage is refused");
                    assert_eq!(refused.reason, reason, "{damage:?} {size:?} {habit:?}");
                }
            }
        }
    }

    #[test]
    fn miscounted_sheets_are_refused() {
        let mut seeded = Seeded::new(1);
        let mut met = BTreeSet::new();
        for size in [Size::Small, Size::Middle, Size::FullYear] {
            for _ in 0..50 {
                let readings = readings_of_size(Habit::FewReadings, size, &mut seeded);
                let file = damaged(&Sheet { readings }, Damage::Miscounted, &mut seeded);
                let refused = figures_of(&file).expect_err("the count is wrong");
                met.insert(refused.reason as u8);
            }
        }
        assert_eq!(met, BTreeSet::from([1, 5, 9]));
    }

    #[test]
    fn worked_sheets_come_first() {
        let first: Vec<Vec<u8>> = sheet_cases(9)
            .take(worked_files().len())
            .map(|case| case.0)
            .collect();
        assert_eq!(first, worked_files());
    }

    #[test]
    fn same_seed_gives_the_same_cases() {
        let cases = |seed| sheet_cases(seed).take(200).collect::<Vec<_>>();
        assert_eq!(cases(3), cases(3));
        assert_ne!(cases(3), cases(4));
    }

    #[test]
    fn every_refusal_comes_often_among_some_hundred_cases() {
        const AT_LEAST: usize = 25;
        const ACCEPTED_AT_LEAST: usize = 200;
        let mut counts: BTreeMap<String, usize> = BTreeMap::new();
        for case in sheet_cases(1).take(500) {
            *counts.entry(label_of(&case.answer())).or_default() += 1;
        }
        assert!(counts["A"] >= ACCEPTED_AT_LEAST, "{counts:?}");
        for number in [1, 2, 3, 5, 9] {
            assert!(counts[&format!("R{number}")] >= AT_LEAST, "{counts:?}");
        }
    }

    #[test]
    fn refusals_come_at_many_places() {
        const AT_LEAST: usize = 30;
        let mut places: BTreeMap<u8, BTreeSet<usize>> = BTreeMap::new();
        for case in sheet_cases(1).take(5000) {
            if let Err(refused) = figures_of(&case.0) {
                let number = refused.reason as u8;
                places.entry(number).or_default().insert(refused.place);
            }
        }
        assert_eq!(places[&5], BTreeSet::from([0]));
        for number in [1, 2, 3, 9] {
            assert!(places[&number].len() >= AT_LEAST, "{number}");
            assert!(places[&number].iter().any(|&place| place > 300), "{number}");
        }
    }

    #[test]
    fn every_refusal_has_the_byte_that_goes_with_its_place() {
        for SheetCase(file) in sheet_cases(1).take(5000) {
            if let Err(refused) = figures_of(&file) {
                assert_offset_of_number(&file, &refused);
            }
        }
    }

    #[test]
    fn figures_of_every_sort_are_met() {
        let accepted: Vec<_> = sheet_cases(1)
            .take(2000)
            .filter_map(|case| figures_of(&case.0).ok())
            .collect();
        assert!(accepted.iter().any(|figures| figures.sum > 1 << 40));
        assert!(accepted.iter().any(|figures| figures.repeated > 300));
        assert!(accepted.iter().any(|figures| figures.repeated_zero > 300));
        assert!(accepted.iter().any(|figures| figures.longest == 366));
        assert!(accepted.iter().any(|figures| figures.first > 300));
        assert!(accepted.iter().any(|figures| figures.longest == 0));
    }

    #[test]
    fn one_case_in_about_twenty_is_a_full_year() {
        const COUNT_OF_A_YEAR: [u8; 2] = [0xEE, 0x02];
        let cases = sheet_cases(1).take(1000);
        let full = cases.filter(|case| case.0.starts_with(&COUNT_OF_A_YEAR));
        assert!((35..70).contains(&full.count()));
    }
}
