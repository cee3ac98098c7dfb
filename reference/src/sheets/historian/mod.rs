//! The historian's call for sheets in C: what is asked, what it leaves, and the suites of cases.
//! Every run asks the same ones.

pub mod call;
mod left;

use super::files::{bytes, counts, few_days, lengths, nearly_equal, spells};
use super::printed::printed_suites;
use super::seeded::seeded_sheets;
use crate::file_bytes::{every_value, telling_values};
use crate::questions::Suite;
use call::DaysCall;

/// The most days of the sheets that are all asked, and their largest reading.
const MOST_OF_FEW_DAYS: u32 = 8;
const LARGEST_OF_FEW_DAYS: usize = 2;
/// How many seeded calls there are.
const SEEDED_CALLS: usize = 120_000;
/// The seed of these calls.
const SEED_OF_CALLS: u64 = 0x5EED_0013;
/// How often the seeded calls must meet acceptance and each refusal at least.
const EACH_ANSWER_AT_LEAST: usize = 2000;

/// All suites for the historian's call for sheets.
pub fn days_suites() -> Vec<Suite<DaysCall>> {
    let mut suites = vec![suite(
        "historian days, files of the printing program",
        printed_files(),
    )];
    suites.extend(suites_of_whole_sheets());
    suites.extend(suites_of_damaged_sheets());
    suites.push(Suite {
        each_answer_at_least: EACH_ANSWER_AT_LEAST,
        ..suite(
            "historian days, seeded accepted and refused",
            seeded_sheets(SEED_OF_CALLS).take(SEEDED_CALLS).collect(),
        )
    });
    suites
}

/// Suites of sheets that are all accepted.
fn suites_of_whole_sheets() -> Vec<Suite<DaysCall>> {
    vec![
        suite(
            "historian days, every sheet of one to eight days",
            few_days::every_sheet(MOST_OF_FEW_DAYS, LARGEST_OF_FEW_DAYS),
        ),
        suite(
            "historian days, one spell of every length",
            spells::one_spell(),
        ),
        suite("historian days, two spells", spells::two_spells()),
        suite(
            "historian days, two spells in a full year",
            spells::two_spells_in_a_year(),
        ),
        suite(
            "historian days, readings that are nearly equal",
            nearly_equal::readings_of_every_size(),
        ),
    ]
}

/// Suites of sheets that are cut, changed, miscounted, or followed by bytes.
fn suites_of_damaged_sheets() -> Vec<Suite<DaysCall>> {
    vec![
        suite("historian days, every count", counts::every_count()),
        suite(
            "historian days, faults at every number",
            bytes::faults_everywhere(),
        ),
        suite("historian days, bytes after sheets", bytes::bytes_after()),
        suite(
            "historian days, refused behind readings of every length",
            lengths::refused_sheets(),
        ),
        suite(
            "historian days, each byte of a full year changed to each value",
            bytes::year_changed(every_value),
        ),
        suite(
            "historian days, every cut of the longest sheets",
            bytes::cuts_of_the_longest(),
        ),
        suite(
            "historian days, each byte of the longest sheet changed",
            bytes::longest_changed(telling_values),
        ),
        suite("historian days, seeded noise", bytes::noise()),
    ]
}

fn suite(name: &'static str, files: Vec<Vec<u8>>) -> Suite<DaysCall> {
    let cases = files.into_iter().map(DaysCall).collect();
    Suite::new(name, cases)
}

/// All files for which the printing program is started.
fn printed_files() -> Vec<Vec<u8>> {
    let cases = printed_suites().into_iter().flat_map(|suite| suite.cases);
    cases.map(|case| case.0).collect()
}

#[cfg(test)]
mod tests {
    use super::*;
    use crate::questions::suites_checked::{assert_each_meets, assert_same_cases};
    use crate::questions::{Answer, Question};

    /// The answers that each suite must meet, and how often at least.
    const MET: [(&[&str], usize); 15] = [
        (DaysCall::LABELS, 20),
        (&["A"], 9840),
        (&["A"], 5000),
        (&["A"], 15_000),
        (&["A"], 5000),
        (&["A"], 10_000),
        (&["A", "R1", "R5", "R9"], 40),
        (&["R1", "R2", "R3"], 500),
        (&["R9"], 1000),
        (&["R1", "R2", "R3", "R9"], 100),
        (&["A", "R1", "R2", "R5", "R9"], 100),
        (&["R1"], 3500),
        (&["A", "R2", "R3", "R9"], 1000),
        (DaysCall::LABELS, 90),
        (DaysCall::LABELS, EACH_ANSWER_AT_LEAST),
    ];
    /// The largest file that a test program must hold.
    const LARGEST_FILE: usize = 70_000;

    #[test]
    fn suites_meet_each_answer_they_can() {
        assert_each_meets(&days_suites(), &MET);
    }

    #[test]
    fn whole_sheets_are_all_accepted() {
        for Suite { name, cases, .. } in suites_of_whole_sheets() {
            let refused = cases.iter().find(|case| case.answer().label() != "A");
            assert_eq!(refused, None, "{name}");
        }
    }

    #[test]
    fn every_run_asks_the_same_cases() {
        assert_same_cases(&days_suites(), &days_suites());
    }

    #[test]
    fn cases_are_many_but_small_enough_for_a_test_program() {
        let suites = days_suites();
        let cases: Vec<&DaysCall> = suites.iter().flat_map(|suite| &suite.cases).collect();
        assert!(
            (250_000..=400_000).contains(&cases.len()),
            "{}",
            cases.len()
        );
        assert!(cases.iter().all(|case| case.0.len() <= LARGEST_FILE));
    }
}
