//! Small periods about fossil CO2 captured with the rest, for every kind of question: what is taken
//! from fuel, what is refused, and what comes first if several things are wrong.

mod fields;
mod many;
mod order;
mod taken;

use super::accounts::Tables;
use super::case::PeriodCase;
use super::classes::{CAPTURED_FOSSIL, FUEL, GRAMS_OF_A_KG, INPUTS};
use super::records::{Line, Owner, EDITION};
use crate::numbers::writing::write_numbers;

/// The numbers of a line, which need not be allowed.
type LineNumbers = [u64; Line::NUMBERS];

/// How many plants and segments there are.
const PLANTS: usize = 3;
const SEGMENTS: usize = 2;
/// Their records: two plants on a route of both segments, and one that comes in at the store.
const RECORDS: [u64; 15] = [
    10_000, 1, 1_000_000, //
    5001, 1, 900_000, //
    2000, 2, 500_000, //
    1, 14_900, 2, //
    6, 16_899, 0,
];

/// Lines of a plant that captures all of its fuel's CO2.
const ALL_FUEL: [LineNumbers; 2] = [fuel(1, 2, 2500), captured(1, 5)];

/// The file of a period in which all of a plant's fuel is captured.
pub fn all_captured() -> Vec<u8> {
    file_of(&ALL_FUEL)
}

/// The cases, small ones alone, so that each can be worked out by hand.
pub fn small_cases() -> Vec<PeriodCase> {
    let mut cases: Vec<PeriodCase> = small_files().into_iter().map(case_of).collect();
    cases.extend(many::cases_of_all_plants());
    cases.extend(order::with_short_tables());
    cases
}

/// The files of these cases, each once, and those of as many lines as there can be.
pub fn all_files() -> Vec<Vec<u8>> {
    let of_all_plants = many::cases_of_all_plants().map(|case| case.file);
    [
        small_files(),
        of_all_plants.to_vec(),
        many::files_of_most_lines(),
    ]
    .concat()
}

/// The files of three plants and two segments.
fn small_files() -> Vec<Vec<u8>> {
    [
        taken::accepted(),
        taken::refused(),
        order::of_several_faults(),
        fields::at_and_past_their_limits(),
    ]
    .concat()
}

/// The file with tables that just hold the rows of three plants and two segments.
fn case_of(file: Vec<u8>) -> PeriodCase {
    PeriodCase {
        file,
        tables: Tables::just_for(PLANTS, SEGMENTS),
    }
}

/// The file of the records with these lines.
fn file_of(lines: &[LineNumbers]) -> Vec<u8> {
    write_numbers(&numbers_of(lines))
}

/// The numbers of that file.
fn numbers_of(lines: &[LineNumbers]) -> Vec<u64> {
    let counts = [PLANTS, SEGMENTS, lines.len()].map(|count| count as u64);
    [&[EDITION], &counts[..], &RECORDS, &lines.concat()].concat()
}

/// A line of a plant's fuel.
const fn fuel(plant: u64, quantity: u64, factor: u64) -> LineNumbers {
    [Owner::PLANT, plant, FUEL, quantity, factor]
}

/// A line of a plant's inputs.
const fn inputs(plant: u64, quantity: u64, factor: u64) -> LineNumbers {
    [Owner::PLANT, plant, INPUTS, quantity, factor]
}

/// A line of what a plant captured of its fuel's CO2.
const fn captured(plant: u64, kg: u64) -> LineNumbers {
    [Owner::PLANT, plant, CAPTURED_FOSSIL, kg, GRAMS_OF_A_KG]
}

/// What the tests here ask of a file.
#[cfg(test)]
mod answers {
    use super::*;
    use crate::periods::accounts::account;

    /// What each plant is associated with, or the refusal.
    pub fn answer(file: &[u8]) -> String {
        match account(file, Tables::LARGE_ENOUGH) {
            Ok(rows) => {
                let plants = rows.plants.iter().map(|row| row.associated.to_string());
                plants.collect::<Vec<_>>().join(" ")
            }
            Err(refused) => refused.to_string(),
        }
    }

    /// The answers to all the files.
    pub fn answers(files: &[Vec<u8>]) -> Vec<String> {
        files.iter().map(|file| answer(file)).collect()
    }
}

#[cfg(test)]
mod tests {
    use super::answers::answers;
    use super::*;
    use std::collections::BTreeSet;

    #[test]
    fn period_without_lines_is_accepted() {
        assert_eq!(answers(&[file_of(&[])]), ["0 0 0"]);
    }

    #[test]
    fn every_case_is_another_one() {
        let cases = small_cases();
        let lines: BTreeSet<String> = cases.iter().map(PeriodCase::to_string).collect();
        assert_eq!(lines.len(), cases.len());
    }

    #[test]
    fn small_cases_are_few_and_small() {
        let cases = small_cases();
        assert!((40..=70).contains(&cases.len()), "{}", cases.len());
        assert!(cases.iter().all(|case| case.file.len() <= 400));
    }
}
