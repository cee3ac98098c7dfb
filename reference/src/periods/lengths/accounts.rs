//! Periods with numbers of every length that the accounts refuse: refusals 10 to 16.

use super::{period_of, with_just_enough_room, SEGMENTS};
use crate::numbers::lengths::EACH_LENGTHS;
use crate::numbers::number::LIMIT;
use crate::numbers::writing::write_numbers;
use crate::periods::account_limits::full_size::{
    export_each, let_all_pass, set_captured, set_grams, set_kg, set_line,
};
use crate::periods::case::PeriodCase;
use crate::periods::classes::GRAMS_OF_A_KG;
use crate::periods::records::{Owner, Period};
use std::collections::BTreeSet;

/// How many lines there are: few, more, and so many that their count has two bytes.
const COUNTS_OF_LINES: [usize; 6] = [1, 2, 3, 40, 127, 128];
/// Whose gram total passes the limit.
const OWNER: Owner = Owner::Plant(1);

/// Each refusal by the accounts in files of many lengths.
pub fn refused_by_accounts() -> Vec<PeriodCase> {
    let mut cases = Vec::new();
    for lengths in EACH_LENGTHS {
        for lines in COUNTS_OF_LINES {
            let period = period_of(lengths, lines);
            cases.extend(gram_totals_passed(&period).iter().map(case_of));
            cases.extend(captured_above_fuel(&period).iter().map(case_of));
            cases.extend(flows_refused(&period).iter().map(case_of));
            cases.extend(with_short_tables(&period));
        }
    }
    cases
}

/// The first, a middle and the last line pass the limit, alone and together with the first.
fn gram_totals_passed(period: &Period) -> Vec<Period> {
    let lines = period.lines.len();
    let deciding = BTreeSet::from([1, (lines + 1) / 2, lines]);
    let mut periods = Vec::new();
    for line in deciding {
        periods.push(passed_by(line, period.clone()));
        if line > 1 {
            periods.push(passed_by_first_and(line, period.clone()));
        }
    }
    periods
}

/// The line alone passes the limit.
fn passed_by(line: usize, mut period: Period) -> Period {
    set_line(&mut period, line, OWNER, LIMIT, GRAMS_OF_A_KG + 1);
    period
}

/// The first line reaches the limit, and this one passes it by a gram.
fn passed_by_first_and(line: usize, mut period: Period) -> Period {
    set_kg(&mut period, 1, OWNER, LIMIT);
    set_grams(&mut period, line, OWNER, 1);
    period
}

/// The last line says that a plant without fuel captured some: the first a kg, the other the most.
fn captured_above_fuel(period: &Period) -> [Period; 2] {
    let last = period.lines.len();
    [(1, 1), (2, LIMIT)].map(|(plant, kg)| {
        let mut period = period.clone();
        set_captured(&mut period, last, plant, kg);
        period
    })
}

/// An inflow past its limit, an outflow over its inflow, and an emission without inflow.
fn flows_refused(period: &Period) -> [Period; 3] {
    [
        inflow_too_large(period.clone()),
        outflow_over_inflow(period.clone()),
        emission_without_inflow(period.clone()),
    ]
}

/// Both plants together bring too much to the store.
fn inflow_too_large(mut period: Period) -> Period {
    export_each(&mut period, |_| LIMIT);
    let_all_pass(&mut period);
    period
}

/// A kg more comes out of the second segment than goes in.
fn outflow_over_inflow(mut period: Period) -> Period {
    period.segments[1].outflow += 1;
    period
}

/// Nothing is exported, and the store's line has a gram.
fn emission_without_inflow(mut period: Period) -> Period {
    export_each(&mut period, |_| 0);
    let_all_pass(&mut period);
    let last = period.lines.len();
    set_grams(&mut period, last, Owner::Segment(SEGMENTS), 1);
    period
}

/// The period with tables that just hold its rows.
fn case_of(period: &Period) -> PeriodCase {
    with_just_enough_room(write_numbers(&period.numbers()))
}

/// The period with a plant table, then with a segment table, that is a number short.
fn with_short_tables(period: &Period) -> [PeriodCase; 2] {
    let mut plant_short = case_of(period);
    let mut segment_short = plant_short.clone();
    plant_short.tables.plant -= 1;
    segment_short.tables.segment -= 1;
    [plant_short, segment_short]
}

#[cfg(test)]
mod tests {
    use super::*;
    use crate::numbers::lengths::Lengths;
    use std::collections::BTreeMap;

    /// The refusals of a period of three lines and numbers of these lengths, one after the other.
    fn refusals_of(lengths: Lengths) -> Vec<String> {
        let period = period_of(lengths, 3);
        let mut cases: Vec<PeriodCase> = gram_totals_passed(&period)
            .iter()
            .chain(&captured_above_fuel(&period))
            .chain(&flows_refused(&period))
            .map(case_of)
            .collect();
        cases.extend(with_short_tables(&period));
        cases.iter().map(PeriodCase::answer).collect()
    }

    #[test]
    fn short_numbers_have_a_byte_each() {
        // 19 numbers before the lines, and 5 in each of them. A first line at the limit has 5 bytes
        // more, a line of captured kg 1 or 5; each of 5 exports and outflows at theirs has 4 more.
        assert_eq!(
            refusals_of(&[1]),
            [
                "R 10 1 19",
                "R 10 2 24",
                "R 10 2 29",
                "R 10 3 29",
                "R 10 3 34",
                "R 16 1 35",
                "R 16 2 39",
                "R 11 3 54",
                "R 12 2 34",
                "R 13 3 34",
                "R 14 16 34",
                "R 15 15 34",
            ]
        );
    }

    #[test]
    fn long_numbers_have_up_to_five_bytes() {
        // Before the lines 4 + 2 * (5 + 1 + 3) + 3 * (1 + 5 + 1) = 43 bytes, in a line 9, with
        // captured kg 6 or 10. Without exports, each of 5 amounts has 4 bytes less, and so has the
        // last line.
        assert_eq!(
            refusals_of(&[5]),
            [
                "R 10 1 43",
                "R 10 2 52",
                "R 10 2 53",
                "R 10 3 61",
                "R 10 3 62",
                "R 16 1 67",
                "R 16 2 71",
                "R 11 3 70",
                "R 12 2 70",
                "R 13 3 46",
                "R 14 16 70",
                "R 15 15 70",
            ]
        );
    }

    #[test]
    fn each_refusal_comes_at_many_offsets() {
        const AT_LEAST: usize = 30;
        let mut offsets: BTreeMap<String, BTreeSet<String>> = BTreeMap::new();
        for case in refused_by_accounts() {
            let answer = case.answer();
            let mut words = answer.split(' ').skip(1).map(str::to_string);
            let number = words.next().expect("a refusal has a number");
            let offset = words.nth(1).expect("a refusal has an offset");
            offsets.entry(number).or_default().insert(offset);
        }
        assert_eq!(offsets.len(), 7);
        for (number, offsets) in offsets {
            assert!(offsets.len() >= AT_LEAST, "{number}: {}", offsets.len());
        }
    }
}
