//! The inspector's page: what it says of a file, and the suites of files. Every run asks the same
//! ones, and each file means a start of the program, so there are not too many.

mod accepted_files;
mod behind_refusals;
mod bytes_at_fault;
mod damaged_bytes;
mod faults;
pub mod file;
mod headers;
mod long_files;
mod named_field;
pub mod page;
mod refused_fields;
mod values;

use super::captured::all_files;
use super::lengths::reading::refused_by_reading;
use super::lengths::some_for_each_reason;
use super::paper::proved_files;
use super::suites::bytes::noise;
use crate::questions::Suite;
use file::InspectedFile;

/// One file in this many is asked of those of noise.
const NOISES_TO_AN_ASKED_ONE: usize = 271;
/// How many files with numbers of every length there are for each refusal.
const LENGTHS_OF_EACH_REFUSAL: usize = 2;
/// How often the long files must meet each end of a page at least.
const EACH_END_AT_LEAST: usize = 5;

/// All suites for the inspector's page.
pub fn inspection_suites() -> Vec<Suite<InspectedFile>> {
    vec![
        suite("inspections, files of the paper", proved_files()),
        suite(
            "inspections, accepted files",
            accepted_files::accepted_files(),
        ),
        suite(
            "inspections, every cut of the whole period",
            damaged_bytes::every_cut(),
        ),
        suite(
            "inspections, each byte of the whole period changed",
            damaged_bytes::each_byte_changed(),
        ),
        suite(
            "inspections, bytes after the whole period",
            damaged_bytes::bytes_after(),
        ),
        suite("inspections, every fault at every place", faults::faults()),
        suite(
            "inspections, faults behind each field that is refused",
            behind_refusals::faults_behind_each_field(),
        ),
        suite(
            "inspections, bytes of numbers at fault",
            bytes_at_fault::exports_at_fault(),
        ),
        suite(
            "inspections, refused behind numbers of every length",
            some_for_each_reason(refused_by_reading(), LENGTHS_OF_EACH_REFUSAL),
        ),
        suite(
            "inspections, headers at their limits and past them",
            headers::headers(),
        ),
        suite(
            "inspections, values that no field may have",
            values::values_behind_header(),
        ),
        suite("inspections, captured fossil CO2", all_files()),
        suite("inspections, seeded noise", noise_files()),
        Suite {
            each_answer_at_least: EACH_END_AT_LEAST,
            ..suite(
                "inspections, files as long as the buffer and longer",
                long_files::long_files(),
            )
        },
    ]
}

fn suite(name: &'static str, files: Vec<Vec<u8>>) -> Suite<InspectedFile> {
    let cases = files.into_iter().map(InspectedFile).collect();
    Suite::new(name, cases)
}

/// Some of the files of noise.
fn noise_files() -> Vec<Vec<u8>> {
    noise()
        .into_iter()
        .step_by(NOISES_TO_AN_ASKED_ONE)
        .collect()
}

#[cfg(test)]
mod tests {
    use super::*;
    use crate::compare::tally::Tally;
    use crate::questions::suites_checked::assert_same_cases;
    use crate::questions::FileToPrint;
    use page::inspect;
    use std::collections::BTreeSet;

    /// The ends of pages that each suite must meet, and how often at least.
    const ENDS_MET: [(&[&str], usize); 14] = [
        (&["F2", "F3", "E"], 1),
        (&["E"], 60),
        (&["F1", "E"], 10),
        (&["F1", "F2", "F3", "E"], 3),
        (&["F1", "F2", "F3", "E"], 1),
        (&["F1", "F2", "F3"], 50),
        (&["F1", "F2", "F3"], 10),
        (&["F1", "F2", "F3"], 4),
        (&["F2", "F3", "E"], 2),
        (&["F1", "F2", "F3", "E"], 4),
        (&["E"], 60),
        (&["F1", "F2", "F3", "E"], 1),
        (&["F1", "F2", "F3", "E"], 1),
        (InspectedFile::LABELS, EACH_END_AT_LEAST),
    ];

    /// What reading must say of the files of each suite, and how often at least.
    const READINGS_MET: [(&[&str], usize); 14] = [
        (&["read", "R1", "R2", "R3", "R4", "R5", "R7", "R9"], 1),
        (&["read"], 60),
        (&["read", "R1"], 1),
        (InspectedFile::LABELS_BESIDES, 3),
        (&["R9"], 15),
        (&["R1", "R2", "R3", "R5", "R6", "R7", "R8", "R9"], 3),
        (&["R4", "R5", "R6", "R7", "R8"], 2),
        (&["R1", "R2", "R3"], 4),
        (
            &["R1", "R2", "R3", "R4", "R5", "R6", "R7", "R8", "R9"],
            LENGTHS_OF_EACH_REFUSAL,
        ),
        (&["read", "R1", "R4", "R5", "R9"], 10),
        (&["read", "R6", "R7", "R8"], 5),
        (&["read", "R1", "R2", "R3", "R8", "R9"], 1),
        (&["R1", "R3", "R4", "R5", "R6", "R7", "R8", "R9"], 1),
        (&["R3", "R4", "R5", "R6", "R7", "R8", "R9"], 1),
    ];

    /// How often the pages of the files have each label, of one sort or of the other.
    fn tally_of(files: &[InspectedFile]) -> Tally {
        let labels = [InspectedFile::LABELS, InspectedFile::LABELS_BESIDES].concat();
        let mut tally = Tally::new(&labels);
        for page in files.iter().map(FileToPrint::printed) {
            tally.add(&InspectedFile::label_of(&page));
            tally.add(&InspectedFile::label_besides(&page).expect("every page has both"));
        }
        tally
    }

    #[test]
    fn suites_meet_each_end_and_each_reading_they_can() {
        let suites = inspection_suites();
        for met in [ENDS_MET, READINGS_MET] {
            assert_eq!(suites.len(), met.len());
            for (Suite { name, cases, .. }, (labels, at_least)) in suites.iter().zip(met) {
                let tally = tally_of(cases);
                for label in labels {
                    assert!(tally.count(label) >= at_least, "{name}: {tally}");
                }
            }
        }
    }

    /// The places at which reading refuses files of all suites for the reason of this number.
    fn places_refused(number: u8) -> BTreeSet<usize> {
        let suites = inspection_suites();
        let files = suites.iter().flat_map(|suite| &suite.cases);
        files
            .filter_map(|file| inspect(&file.0).refused)
            .filter(|refused| refused.reason as u8 == number)
            .map(|refused| refused.place)
            .collect()
    }

    #[test]
    fn each_refusal_of_reading_comes_at_several_places() {
        assert_eq!(places_refused(4), BTreeSet::from([0]), "the edition's");
        assert_eq!(places_refused(5), BTreeSet::from([1, 2, 3]), "the counts'");
        for number in [1, 2, 3, 6, 7, 8, 9] {
            let places = places_refused(number);
            assert!(places.len() >= 5, "{number} at {places:?}");
        }
    }

    /// The bytes in the lines of the page that are marked.
    fn bytes_marked(page: &str) -> Vec<&str> {
        let marked = page.lines().filter(|line| line.ends_with(" <--"));
        marked.filter_map(|line| line.split(' ').nth(1)).collect()
    }

    #[test]
    fn line_of_the_refused_number_is_marked_if_there_is_one() {
        for InspectedFile(file) in inspection_suites().iter().flat_map(|suite| &suite.cases) {
            let page = inspect(file);
            let offset = page.refused.map(|refused| refused.offset);
            let in_file = offset.filter(|&offset| offset < file.len() as u64);
            let expected: Vec<String> = in_file.iter().map(u64::to_string).collect();
            assert_eq!(bytes_marked(&page.to_string()), expected);
        }
    }

    /// A file that is read is walked to its end, and one with the refusal 1, 2 or 3 up to there.
    /// Past the other refusals the walk goes on, and can end in every way.
    #[test]
    fn every_end_comes_with_every_reading_it_can() {
        let mut pairs = BTreeSet::new();
        for Suite { cases, .. } in inspection_suites() {
            for page in cases.iter().map(FileToPrint::printed) {
                let reading = InspectedFile::label_besides(&page).unwrap_or_default();
                pairs.insert(format!("{reading} {}", InspectedFile::label_of(&page)));
            }
        }
        let mut expected =
            BTreeSet::from(["read E", "R1 E", "R1 F1", "R2 F2", "R3 F3"].map(str::to_string));
        for refusal in ["R4", "R5", "R6", "R7", "R8", "R9"] {
            let ends = InspectedFile::LABELS.iter();
            expected.extend(ends.map(|end| format!("{refusal} {end}")));
        }
        assert_eq!(pairs, expected);
    }

    #[test]
    fn every_run_asks_the_same_files() {
        assert_same_cases(&inspection_suites(), &inspection_suites());
    }

    #[test]
    fn files_are_few_enough_to_start_a_slow_program_for_each() {
        let suites = inspection_suites();
        let files: usize = suites.iter().map(|suite| suite.cases.len()).sum();
        assert!((1000..=1200).contains(&files), "{files}");
    }
}
