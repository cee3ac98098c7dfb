//! The program that prints rows: what is asked of it, and the suites of files. Every run asks
//! the same ones, and each file means a start of the program, so there are few.

pub mod file;
mod long_files;

use super::account_limits::about_every_subject;
use super::captured::all_files;
use super::lengths::{refused_cases, some_for_each_reason};
use super::paper::proved_files;
use super::seeded::period_cases::{full_size_files, seeded_cases};
use crate::numbers::writing::write_numbers;
use crate::questions::Suite;
use file::PrintedFile;

/// How many seeded files there are.
const SEEDED_FILES: usize = 200;
/// The seeds of these files and of the full-size ones.
const SEED_OF_FILES: u64 = 0x5EED_000D;
const SEED_OF_FULL_SIZE_FILES: u64 = 0x5EED_000E;
/// How often the seeded files must meet rows and each refusal at least.
const EACH_ANSWER_AT_LEAST: usize = 4;
/// One period in this many is asked of those at the limits of the accounts.
const PERIODS_TO_AN_ASKED_ONE: usize = 59;
/// How many files with numbers of every length there are for each refusal.
const LENGTHS_OF_EACH_REFUSAL: usize = 4;

/// All suites for the program that prints rows.
pub fn printed_suites() -> Vec<Suite<PrintedFile>> {
    vec![
        suite("rows, files of the paper", proved_files()),
        suite(
            "rows, files as long as can be and longer",
            long_files::long_files(),
        ),
        suite(
            "rows, full-size accepted and refused",
            full_size_files(SEED_OF_FULL_SIZE_FILES),
        ),
        suite(
            "rows, full-size at the limits of the accounts",
            files_at_limits(),
        ),
        suite("rows, captured fossil CO2", all_files()),
        suite(
            "rows, refused behind numbers of every length",
            files_of_every_length(),
        ),
        Suite {
            each_answer_at_least: EACH_ANSWER_AT_LEAST,
            ..suite("rows, seeded accepted and refused", seeded_files())
        },
    ]
}

fn suite(name: &'static str, files: Vec<Vec<u8>>) -> Suite<PrintedFile> {
    let cases = files.into_iter().map(PrintedFile).collect();
    Suite::new(name, cases)
}

/// Some of the periods about every subject.
fn files_at_limits() -> Vec<Vec<u8>> {
    let periods = about_every_subject();
    let asked = periods.iter().step_by(PERIODS_TO_AN_ASKED_ONE);
    asked
        .map(|period| write_numbers(&period.numbers()))
        .collect()
}

/// Some of the files with numbers of every length.
fn files_of_every_length() -> Vec<Vec<u8>> {
    let files = refused_cases().into_iter().map(|case| case.file);
    some_for_each_reason(files.collect(), LENGTHS_OF_EACH_REFUSAL)
}

/// The files of seeded cases; their tables do not matter here.
fn seeded_files() -> Vec<Vec<u8>> {
    let cases = seeded_cases(SEED_OF_FILES).take(SEEDED_FILES);
    cases.map(|case| case.file).collect()
}

#[cfg(test)]
mod tests {
    use super::*;
    use crate::compare::tally::Tally;
    use crate::questions::FileToPrint;

    #[test]
    fn files_are_few_enough_to_start_a_slow_program_for_each() {
        let files: usize = printed_suites().iter().map(|suite| suite.cases.len()).sum();
        assert!((350..=450).contains(&files), "{files}");
    }

    #[test]
    fn full_size_and_seeded_files_meet_every_answer() {
        for files in [full_size_files(SEED_OF_FULL_SIZE_FILES), seeded_files()] {
            let mut tally = Tally::new(PrintedFile::LABELS);
            for file in files {
                let printed = PrintedFile(file).printed();
                tally.add(&PrintedFile::label_of(&printed));
            }
            assert_eq!(tally.below(1).count(), 0, "{tally}");
        }
    }
}
