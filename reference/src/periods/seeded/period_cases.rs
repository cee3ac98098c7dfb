//! Seeded cases of the whole of the paper: about half accepted, the others
//! refused for every reason in turn.

use super::captured::Captured;
use super::damage::{damaged, Damage};
use super::exports::Exports;
use super::lines::Lines;
use super::outflows::Outflows;
use super::routes::Routes;
use super::seeded_period;
use super::wishes::{Size, Wish, ACCEPTED, ORDINARY};
use crate::numbers::writing::write_numbers;
use crate::periods::accounts::Tables;
use crate::periods::captured::small_cases;
use crate::periods::case::PeriodCase;
use crate::periods::paper::proved_cases;
use crate::periods::records::Period;
use crate::refusal::Reason;
use crate::seeded::Seeded;

/// What comes of a case.
#[derive(Clone, Copy, Debug)]
enum Goal {
    /// A whole period to the wish, with tables that hold its rows.
    Accepted(Wish),
    /// A whole period refused for its amounts.
    Refused(Wish),
    /// A period to any accepted wish, its file damaged.
    Damaged(Damage),
    /// A period to any accepted wish, its plant table short.
    PlantTableShort,
    /// A period to any accepted wish, its segment table short.
    SegmentTableShort,
    /// Several faults at once, of which the paper's order picks one.
    Several,
}

/// Goals that are refused, each reason at least once.
const REFUSED: [Goal; 25] = [
    Goal::Damaged(Damage::CutShort),
    Goal::Damaged(Damage::NotShortest),
    Goal::Damaged(Damage::TooLarge),
    Goal::Damaged(Damage::OutsideField(Reason::Edition)),
    Goal::Damaged(Damage::OutsideField(Reason::Counts)),
    Goal::Damaged(Damage::OutsideField(Reason::PlantField)),
    Goal::Damaged(Damage::OutsideField(Reason::SegmentField)),
    Goal::Damaged(Damage::OutsideField(Reason::LineField)),
    Goal::Damaged(Damage::BytesAfter),
    Goal::Refused(Wish {
        lines: Lines::OnePast,
        ..ORDINARY
    }),
    Goal::Refused(Wish {
        lines: Lines::FarPast,
        ..ORDINARY
    }),
    Goal::Refused(Wish {
        captured: Captured::OnePast,
        ..ORDINARY
    }),
    Goal::Refused(Wish {
        captured: Captured::FarPast,
        ..ORDINARY
    }),
    Goal::Refused(Wish {
        outflows: Outflows::OneOver,
        captured: Captured::OnePast,
        ..ORDINARY
    }),
    Goal::Refused(Wish {
        exports: Exports::OnePast,
        outflows: Outflows::All,
        ..ORDINARY
    }),
    Goal::Refused(Wish {
        exports: Exports::FarPast,
        outflows: Outflows::All,
        ..ORDINARY
    }),
    Goal::Refused(Wish {
        outflows: Outflows::OneOver,
        ..ORDINARY
    }),
    Goal::Refused(Wish {
        routes: Routes::Scattered,
        outflows: Outflows::FarOver,
        ..ORDINARY
    }),
    Goal::Refused(Wish {
        exports: Exports::Nothing,
        lines: Lines::WhereNothingFlows,
        ..ORDINARY
    }),
    Goal::Refused(Wish {
        routes: Routes::FirstUnpassed,
        lines: Lines::WhereNothingFlows,
        ..ORDINARY
    }),
    Goal::Refused(Wish {
        routes: Routes::ThroughAll,
        outflows: Outflows::Nothing,
        lines: Lines::WhereNothingFlows,
        ..ORDINARY
    }),
    Goal::PlantTableShort,
    Goal::SegmentTableShort,
    Goal::Several,
    Goal::Several,
];

/// The settings that come together if there are several faults.
const SEVERAL_ROUTES: [Routes; 3] = [Routes::Meeting, Routes::FirstUnpassed, Routes::ThroughAll];
const SEVERAL_EXPORTS: [Exports; 4] = [
    Exports::Any,
    Exports::Nothing,
    Exports::OnePast,
    Exports::FarPast,
];
const SEVERAL_OUTFLOWS: [Outflows; 4] = [
    Outflows::All,
    Outflows::BitBelow,
    Outflows::OneOver,
    Outflows::FarOver,
];
const SEVERAL_LINES: [Lines; 4] = [
    Lines::OnePast,
    Lines::FarPast,
    Lines::WhereNothingFlows,
    Lines::WhereNothingFlows,
];
const SEVERAL_CAPTURED: [Captured; 3] = [Captured::Within, Captured::OnePast, Captured::FarPast];
const SEVERAL_DAMAGES: [Damage; 4] = [
    Damage::BytesAfter,
    Damage::CutShort,
    Damage::NotShortest,
    Damage::OutsideField(Reason::LineField),
];
/// One case of several faults in this many is damaged besides.
const SEVERAL_TO_A_DAMAGED: usize = 4;

/// After this many cases the sizes come again; no list of goals has a length that shares a factor.
const TURNS_OF_SIZES: usize = 19;
/// Full-size cases of these.
const FULL_TURNS: usize = 1;
/// Middle-size cases of these.
const MIDDLE_TURNS: usize = 6;

/// How the length of a table fits the rows.
#[derive(Clone, Copy, Debug)]
enum Fit {
    Just,
    Longer,
    OneShort,
    Shorter,
    Empty,
}

/// Lengths that hold the rows.
const ENOUGH: [Fit; 3] = [Fit::Just, Fit::Just, Fit::Longer];
/// Lengths that do not.
const SHORT: [Fit; 4] = [Fit::OneShort, Fit::OneShort, Fit::Shorter, Fit::Empty];
/// Lengths if another fault comes first.
const ANY_LENGTH: [Fit; 4] = [Fit::Just, Fit::Longer, Fit::OneShort, Fit::Empty];
/// How many numbers too long a table is at most.
const MOST_TOO_LONG: usize = 20;

/// The paper's own cases, small ones about captured fossil CO2, then seeded ones without end.
pub fn period_cases(seed: u64) -> impl Iterator<Item = PeriodCase> {
    let stated = proved_cases().into_iter().chain(small_cases());
    stated.chain(seeded_cases(seed))
}

/// Seeded cases without end.
pub fn seeded_cases(seed: u64) -> impl Iterator<Item = PeriodCase> {
    let mut seeded = Seeded::new(seed);
    (0..).map(move |turn| seeded_case(turn, &mut seeded))
}

/// A full-size file for every goal there is, accepted and refused.
pub fn full_size_files(seed: u64) -> Vec<Vec<u8>> {
    let mut seeded = Seeded::new(seed);
    let goals = ACCEPTED.into_iter().map(Goal::Accepted).chain(REFUSED);
    goals
        .map(|goal| case_for(goal, Size::Full, &mut seeded).file)
        .collect()
}

/// The case whose turn it is: accepted and refused goals alternate, sizes go round beside them.
fn seeded_case(turn: usize, seeded: &mut Seeded) -> PeriodCase {
    let round = turn / 2;
    let goal = if turn % 2 == 0 {
        Goal::Accepted(ACCEPTED[round % ACCEPTED.len()])
    } else {
        REFUSED[round % REFUSED.len()]
    };
    case_for(goal, size_in_turn(turn), seeded)
}

/// The size whose turn it is.
fn size_in_turn(turn: usize) -> Size {
    match turn % TURNS_OF_SIZES {
        full if full < FULL_TURNS => Size::Full,
        middle if middle < FULL_TURNS + MIDDLE_TURNS => Size::Middle,
        _ => Size::Small,
    }
}

/// A case of this size that reaches the goal.
fn case_for(goal: Goal, size: Size, seeded: &mut Seeded) -> PeriodCase {
    let wish = wish_for(goal, size, seeded);
    let period = seeded_period(&wish, seeded);
    let file = match goal {
        Goal::Damaged(damage) => damaged(&period, damage, seeded),
        Goal::Several if seeded.one_in(SEVERAL_TO_A_DAMAGED) => {
            let damage = seeded.pick(&SEVERAL_DAMAGES);
            damaged(&period, damage, seeded)
        }
        _ => write_numbers(&period.numbers()),
    };
    let tables = tables_for(goal, &period, seeded);
    PeriodCase { file, tables }
}

/// What the period is to be like for the goal.
fn wish_for(goal: Goal, size: Size, seeded: &mut Seeded) -> Wish {
    match goal {
        Goal::Accepted(wish) | Goal::Refused(wish) => Wish { size, ..wish },
        Goal::PlantTableShort | Goal::SegmentTableShort => Wish::any(size, seeded),
        Goal::Damaged(_) => Wish::any_with_lines(size, seeded),
        Goal::Several => Wish {
            size,
            routes: seeded.pick(&SEVERAL_ROUTES),
            exports: seeded.pick(&SEVERAL_EXPORTS),
            outflows: seeded.pick(&SEVERAL_OUTFLOWS),
            lines: seeded.pick(&SEVERAL_LINES),
            captured: seeded.pick(&SEVERAL_CAPTURED),
            ..ORDINARY
        },
    }
}

/// The tables for the goal, their lengths beside those that the period needs.
fn tables_for(goal: Goal, period: &Period, seeded: &mut Seeded) -> Tables {
    let (plant, segment) = match goal {
        Goal::Accepted(_) => (&ENOUGH[..], &ENOUGH[..]),
        Goal::PlantTableShort => (&SHORT[..], &ANY_LENGTH[..]),
        Goal::SegmentTableShort => (&ENOUGH[..], &SHORT[..]),
        Goal::Refused(_) | Goal::Damaged(_) | Goal::Several => (&ANY_LENGTH[..], &ANY_LENGTH[..]),
    };
    let just = Tables::just_for(period.plants.len(), period.segments.len());
    let plant = seeded.pick(plant);
    let segment = seeded.pick(segment);
    Tables {
        plant: length_for(plant, just.plant, seeded),
        segment: length_for(segment, just.segment, seeded),
    }
}

/// The length of a table beside the one that is just enough.
fn length_for(fit: Fit, just: usize, seeded: &mut Seeded) -> usize {
    match fit {
        Fit::Just => just,
        Fit::Longer => just + 1 + seeded.up_to(MOST_TOO_LONG - 1),
        Fit::OneShort => just - 1,
        Fit::Shorter => seeded.up_to(just - 1),
        Fit::Empty => 0,
    }
}

#[cfg(test)]
mod tests {
    use super::*;
    use crate::periods::accounts::account;
    use crate::questions::label_of;
    use crate::refusal::offsets_checked::{assert_behind_numbers, assert_offset_of_number};
    use crate::refusal::Refused;
    use std::collections::{BTreeMap, BTreeSet};

    /// The reason for which a case of the goal is refused.
    fn reason_of(goal: Goal, size: Size, seeded: &mut Seeded) -> Option<Reason> {
        let case = case_for(goal, size, seeded);
        let refused = account(&case.file, case.tables).err();
        refused.map(|refused| refused.reason)
    }

    /// The reason that a goal is made for, if it is made for one.
    fn wanted(goal: Goal) -> Option<Reason> {
        match goal {
            Goal::Damaged(Damage::CutShort) => Some(Reason::FileEnds),
            Goal::Damaged(Damage::NotShortest) => Some(Reason::NotShortest),
            Goal::Damaged(Damage::TooLarge) => Some(Reason::TooLarge),
            Goal::Damaged(Damage::OutsideField(reason)) => Some(reason),
            Goal::Damaged(Damage::BytesAfter) => Some(Reason::BytesAfter),
            Goal::Refused(wish) => Some(wanted_of_wish(&wish)),
            Goal::PlantTableShort => Some(Reason::PlantTableShort),
            Goal::SegmentTableShort => Some(Reason::SegmentTableShort),
            Goal::Accepted(_) | Goal::Several => None,
        }
    }

    fn wanted_of_wish(wish: &Wish) -> Reason {
        if let Captured::OnePast | Captured::FarPast = wish.captured {
            return Reason::CapturedAboveFuel;
        }
        match (wish.lines, wish.exports, wish.outflows) {
            (Lines::OnePast | Lines::FarPast, _, _) => Reason::GramTotal,
            (_, Exports::OnePast | Exports::FarPast, _) => Reason::InflowTooLarge,
            (_, _, Outflows::OneOver | Outflows::FarOver) => Reason::OutflowOverInflow,
            _ => Reason::EmissionWithoutInflow,
        }
    }

    #[test]
    fn goals_reach_their_reason_at_every_size() {
        let mut seeded = Seeded::new(1);
        for goal in REFUSED {
            for size in [Size::Small, Size::Middle, Size::Full] {
                for _ in 0..20 {
                    let reason = reason_of(goal, size, &mut seeded);
                    assert!(reason.is_some(), "{goal:?} is accepted");
                    if let Some(wanted) = wanted(goal) {
                        assert_eq!(reason, Some(wanted), "{goal:?}");
                    }
                }
            }
        }
    }

    #[test]
    fn cases_of_the_paper_come_first() {
        let stated = [proved_cases(), small_cases()].concat();
        let first: Vec<PeriodCase> = period_cases(9).take(stated.len()).collect();
        assert_eq!(first, stated);
    }

    #[test]
    fn same_seed_gives_the_same_cases() {
        let cases = |seed| period_cases(seed).take(100).collect::<Vec<_>>();
        assert_eq!(cases(3), cases(3));
        assert_ne!(cases(3), cases(4));
    }

    #[test]
    fn every_refusal_comes_often_among_some_hundred_cases() {
        const AT_LEAST: usize = 5;
        const ACCEPTED_AT_LEAST: usize = 150;
        let mut counts: BTreeMap<String, usize> = BTreeMap::new();
        for case in period_cases(1).take(500) {
            *counts.entry(label_of(&case.answer())).or_default() += 1;
        }
        assert!(counts["A"] >= ACCEPTED_AT_LEAST, "{counts:?}");
        for number in 1..=16 {
            assert!(counts[&format!("R{number}")] >= AT_LEAST, "{counts:?}");
        }
    }

    #[test]
    fn refusals_come_at_many_places() {
        const AT_LEAST: usize = 5;
        let mut places: BTreeMap<u8, BTreeSet<usize>> = BTreeMap::new();
        for case in period_cases(1).take(2000) {
            if let Err(refused) = account(&case.file, case.tables) {
                let number = refused.reason as u8;
                places.entry(number).or_default().insert(refused.place);
            }
        }
        assert_eq!(places[&4], BTreeSet::from([0]));
        assert_eq!(places[&5], BTreeSet::from([1, 2, 3]));
        for number in (1..=3).chain(6..=16) {
            assert!(
                places[&number].len() >= AT_LEAST,
                "{number}: {:?}",
                places[&number]
            );
        }
    }

    /// Asserts that the refusal has its byte: that of a number, that of a line, or the end.
    fn assert_offset(file: &[u8], refused: &Refused) {
        match refused.reason as u8 {
            1..=9 => assert_offset_of_number(file, refused),
            10 => {
                let (plants, segments) = (usize::from(file[1]), usize::from(file[2]));
                let lines_before = refused.place - 1;
                let numbers = 4 + 3 * plants + 3 * segments + 5 * lines_before;
                assert_behind_numbers(file, refused.offset, numbers);
            }
            _ => assert_eq!(refused.offset, file.len() as u64),
        }
    }

    #[test]
    fn every_refusal_has_its_byte() {
        for case in period_cases(1).take(3000) {
            if let Err(refused) = account(&case.file, case.tables) {
                assert_offset(&case.file, &refused);
            }
        }
    }

    #[test]
    fn one_case_in_about_twenty_is_full_size() {
        const HEADER_OF_FULL_SIZE: [u8; 3] = [1, 16, 32];
        let cases = period_cases(1).take(1000);
        let full = cases.filter(|case| case.file.starts_with(&HEADER_OF_FULL_SIZE));
        assert!((40..70).contains(&full.count()));
    }
}
