//! The program that prints the figures of a sheet: what is asked of it, and the suites of files.
//! Every run asks the same ones, and each file means a start of the program, so there are few.

pub mod file;

use super::files::years::years;
use super::files::{bytes, counts, few_days, lengths, long};
use super::seeded::seeded_sheets;
use super::sheet::sheet_of;
use super::worked::worked_files;
use crate::questions::Suite;
use file::PrintedSheet;

/// The most days of the sheets that are all asked, and their largest reading.
const MOST_OF_FEW_DAYS: u32 = 4;
const LARGEST_OF_FEW_DAYS: usize = 2;
/// One sheet in this many is asked of those with readings of every length.
const LENGTHS_TO_AN_ASKED_ONE: usize = 31;
/// How many seeded files there are.
const SEEDED_FILES: usize = 120;
/// The seed of these files.
const SEED_OF_FILES: u64 = 0x5EED_0012;
/// How often the seeded files must meet figures and each refusal at least.
const EACH_ANSWER_AT_LEAST: usize = 6;

/// All suites for the program that prints the figures.
pub fn printed_suites() -> Vec<Suite<PrintedSheet>> {
    vec![
        suite("days, sheets worked out by hand", worked_files()),
        suite(
            "days, every sheet of one to four days",
            few_days::every_sheet(MOST_OF_FEW_DAYS, LARGEST_OF_FEW_DAYS),
        ),
        suite("days, full years", full_years()),
        suite("days, every cut of a full year", bytes::cuts_of_a_year()),
        suite(
            "days, each byte of a full year changed",
            bytes::year_with_a_bit_flipped(),
        ),
        suite(
            "days, counts at their limits and past them",
            counts::around_limits(),
        ),
        suite(
            "days, faults at count and readings",
            bytes::faults_in_a_year(),
        ),
        suite("days, bytes after a sheet", bytes::some_bytes_after()),
        suite(
            "days, refused behind readings of every length",
            sheets_of_every_length(),
        ),
        suite(
            "days, files as long as can be and longer",
            long::long_files(),
        ),
        Suite {
            each_answer_at_least: EACH_ANSWER_AT_LEAST,
            ..suite("days, seeded accepted and refused", seeded_files())
        },
    ]
}

fn suite(name: &'static str, files: Vec<Vec<u8>>) -> Suite<PrintedSheet> {
    let cases = files.into_iter().map(PrintedSheet).collect();
    Suite::new(name, cases)
}

/// The files of full years.
fn full_years() -> Vec<Vec<u8>> {
    years().iter().map(|readings| sheet_of(readings)).collect()
}

/// Some of the sheets with readings of every length.
fn sheets_of_every_length() -> Vec<Vec<u8>> {
    let files = lengths::refused_sheets().into_iter();
    files.step_by(LENGTHS_TO_AN_ASKED_ONE).collect()
}

fn seeded_files() -> Vec<Vec<u8>> {
    seeded_sheets(SEED_OF_FILES).take(SEEDED_FILES).collect()
}

#[cfg(test)]
mod tests {
    use super::*;
    use crate::compare::tally::Tally;
    use crate::questions::suites_checked::assert_same_cases;
    use crate::questions::FileToPrint;

    /// The answers that each suite must meet, and how often at least.
    const MET: [(&[&str], usize); 11] = [
        (PrintedSheet::LABELS, 2),
        (&["A"], 120),
        (&["A"], 14),
        (&["R1"], 368),
        (&["A", "R1", "R2", "R5"], 1),
        (&["A", "R1", "R5", "R9"], 8),
        (&["R1", "R2", "R3"], 10),
        (&["R9"], 18),
        (&["R1", "R2", "R3", "R9"], 2),
        (&["A", "R3", "R5", "R9"], 1),
        (PrintedSheet::LABELS, EACH_ANSWER_AT_LEAST),
    ];

    #[test]
    fn suites_meet_each_answer_they_can() {
        let suites = printed_suites();
        assert_eq!(suites.len(), MET.len());
        for (Suite { name, cases, .. }, (labels, at_least)) in suites.iter().zip(MET) {
            let mut tally = Tally::new(PrintedSheet::LABELS);
            for case in cases {
                tally.add(&PrintedSheet::label_of(&case.printed()));
            }
            for label in labels {
                assert!(tally.count(label) >= at_least, "{name}: {tally}");
            }
        }
    }

    #[test]
    fn files_are_few_enough_to_start_a_slow_program_for_each() {
        let files: usize = printed_suites().iter().map(|suite| suite.cases.len()).sum();
        assert!((1100..=1300).contains(&files), "{files}");
    }

    #[test]
    fn every_run_asks_the_same_cases() {
        assert_same_cases(&printed_suites(), &printed_suites());
    }
}
