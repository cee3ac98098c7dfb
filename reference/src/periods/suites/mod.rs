//! The suites of cases for reading period files. Every run asks the same ones.

pub mod bytes;
mod damaged_files;
mod full_size;
pub mod limits;
pub mod values;
pub mod whole_files;

use super::captured::all_files;
use super::lengths::reading::refused_by_reading;
use super::paper::proved_files;
use super::question::PeriodFile;
use crate::questions::Suite;

/// All suites for reading period files.
pub fn reading_suites() -> Vec<Suite<PeriodFile>> {
    vec![
        suite("readings, files of the paper", proved_files()),
        suite("readings, every cut of whole files", bytes::every_cut()),
        suite(
            "readings, each byte changed to each value",
            bytes::each_byte_changed(),
        ),
        suite(
            "readings, every fault at every number",
            values::every_fault_at_every_number(),
        ),
        suite(
            "readings, every value around the limits at every number",
            values::every_value_at_every_number(),
        ),
        suite(
            "readings, kinds with next segments, owners with classes",
            values::fields_that_belong_together(),
        ),
        suite(
            "readings, limits at and one past",
            limits::at_and_one_past(),
        ),
        suite("readings, captured fossil CO2", all_files()),
        suite("readings, bytes after whole files", bytes::bytes_after()),
        suite(
            "readings, refused behind numbers of every length",
            refused_by_reading(),
        ),
        suite("readings, full-size files", full_size::full_size()),
        suite(
            "readings, seeded whole and damaged",
            damaged_files::seeded_whole_and_damaged(),
        ),
        suite("readings, seeded noise", bytes::noise()),
    ]
}

fn suite(name: &'static str, files: Vec<Vec<u8>>) -> Suite<PeriodFile> {
    let cases = files.into_iter().map(PeriodFile).collect();
    Suite::new(name, cases)
}

#[cfg(test)]
mod tests {
    use super::*;
    use crate::periods::reading::read_period;
    use crate::questions::suites_checked::{assert_each_meets, assert_same_cases};
    use crate::questions::Question;
    use crate::refusal::offsets_checked::assert_offset_of_number;

    /// The answers that each suite must meet, and how often at least.
    const MET: [(&[&str], usize); 13] = [
        (&["A", "R1", "R2", "R3", "R4", "R5", "R7", "R9"], 1),
        (&["R1"], 200),
        (PeriodFile::LABELS, 400),
        (&["R1", "R2", "R3"], 500),
        (&["A", "R1", "R3", "R4", "R5", "R6", "R7", "R8", "R9"], 15),
        (&["A", "R7", "R8"], 1000),
        (&["A", "R3", "R5", "R6", "R7", "R8"], 40),
        (&["A", "R1", "R2", "R3", "R8", "R9"], 1),
        (&["R9"], 1000),
        (&["R1", "R2", "R3", "R4", "R5", "R6", "R7", "R8", "R9"], 15),
        (&["A", "R1", "R2", "R3", "R6", "R7", "R8", "R9"], 60),
        (PeriodFile::LABELS, 200),
        (PeriodFile::LABELS, 10),
    ];
    /// The largest file that can be put to a program.
    const LARGEST_FILE: usize = 16_384;
    /// An answer of more numbers than this takes a slow program long to print.
    const MANY_NUMBERS: usize = 2_500;

    #[test]
    fn suites_meet_each_answer_they_can() {
        assert_each_meets(&reading_suites(), &MET);
    }

    #[test]
    fn every_refusal_has_the_byte_that_goes_with_its_place() {
        for PeriodFile(file) in reading_suites().iter().flat_map(|suite| &suite.cases) {
            if let Err(refused) = read_period(file) {
                assert_offset_of_number(file, &refused);
            }
        }
    }

    #[test]
    fn every_run_asks_the_same_cases() {
        assert_same_cases(&reading_suites(), &reading_suites());
    }

    #[test]
    fn files_and_answers_are_few_enough_for_a_slow_program() {
        let cases: Vec<PeriodFile> = reading_suites()
            .into_iter()
            .flat_map(|suite| suite.cases)
            .collect();
        assert!((60_000..=120_000).contains(&cases.len()));
        assert!(cases.iter().all(|case| case.0.len() <= LARGEST_FILE));
        let answers = cases.iter().map(PeriodFile::answer);
        let many = answers.filter(|line| line.0.split(' ').count() > MANY_NUMBERS);
        assert!((60..=300).contains(&many.count()));
    }
}
