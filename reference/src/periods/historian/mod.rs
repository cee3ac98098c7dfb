//! The historian's call in C: what is asked, what it leaves, and the suites of cases. Every run
//! asks the same ones.

pub mod call;
mod damaged_bytes;
mod returned;
mod seeded_calls;
pub mod table_bytes;
mod table_lengths;

use super::account_limits::{
    captured, charges, dry, grams, inflows, order, outflows, results, rounding, routes,
};
use super::accounts::Tables;
use super::captured::small_cases;
use super::case::PeriodCase;
use super::lengths::refused_cases;
use super::paper::proved_cases;
use super::records::Period;
use crate::numbers::writing::write_numbers;
use crate::questions::Suite;
use call::HistorianCall;

/// How many seeded calls there are.
const SEEDED_CALLS: usize = 120_000;
/// How often the seeded calls must meet acceptance and each refusal at least.
const EACH_ANSWER_AT_LEAST: usize = 2000;

/// All suites for the historian's call.
pub fn historian_suites() -> Vec<Suite<HistorianCall>> {
    vec![
        Suite::new("historian, cases of the paper", calls_of_paper()),
        Suite::new(
            "historian, every length of both tables",
            table_lengths::of_whole_period(),
        ),
        Suite::new(
            "historian, files damaged at each byte",
            damaged_bytes::of_two_files(),
        ),
        Suite::new(
            "historian, full-size files with tables of all lengths",
            table_lengths::of_full_size_files(),
        ),
        Suite::new(
            "historian, refused behind numbers of every length",
            calls_of_every_length(),
        ),
        Suite::new(
            "historian, captured fossil CO2 in small periods",
            small_cases().into_iter().map(HistorianCall::of).collect(),
        ),
        full_size(
            "historian, captured fossil CO2 beside fuel",
            &captured::beside_fuel(),
        ),
        full_size(
            "historian, inflow at and past its limit",
            &inflows::around_limit(),
        ),
        full_size(
            "historian, gram totals at and past their limit",
            &grams::around_limit(),
        ),
        full_size(
            "historian, gram totals rounded up once",
            &rounding::once_a_total(),
        ),
        full_size(
            "historian, outflow beside the inflow",
            &outflows::beside_inflow(),
        ),
        full_size(
            "historian, emission without inflow",
            &dry::with_and_without_grams(),
        ),
        full_size(
            "historian, order of several faults",
            &order::of_several_faults(),
        ),
        full_size(
            "historian, routes of every shape",
            &routes::of_every_shape(),
        ),
        full_size(
            "historian, charges beside exact shares",
            &charges::beside_exact_shares(),
        ),
        full_size(
            "historian, results of plants alone",
            &results::of_plants_alone(),
        ),
        Suite {
            each_answer_at_least: EACH_ANSWER_AT_LEAST,
            ..Suite::new(
                "historian, seeded accepted and refused",
                seeded_calls::seeded_calls(SEEDED_CALLS),
            )
        },
    ]
}

/// The whole period and every proved case.
fn calls_of_paper() -> Vec<HistorianCall> {
    proved_cases().into_iter().map(HistorianCall::of).collect()
}

/// Every refusal of periods with numbers of every length.
fn calls_of_every_length() -> Vec<HistorianCall> {
    refused_cases().into_iter().map(HistorianCall::of).collect()
}

/// A suite of whole periods, their tables just enough.
fn full_size(name: &'static str, periods: &[Period]) -> Suite<HistorianCall> {
    let call_of = |period: &Period| {
        HistorianCall::of(PeriodCase {
            file: write_numbers(&period.numbers()),
            tables: Tables::just_for(period.plants.len(), period.segments.len()),
        })
    };
    Suite::new(name, periods.iter().map(call_of).collect())
}

#[cfg(test)]
mod tests {
    use super::*;
    use crate::questions::suites_checked::{assert_each_meets, assert_same_cases};
    use crate::questions::Question;

    /// The answers that each suite must meet, and how often at least.
    const MET: [(&[&str], usize); 17] = [
        (
            &[
                "A", "R1", "R2", "R3", "R4", "R5", "R7", "R9", "R10", "R12", "R13", "R14",
            ],
            1,
        ),
        (&["A", "R14", "R15"], 200),
        (
            &[
                "A", "R1", "R2", "R3", "R4", "R5", "R6", "R7", "R8", "R9", "R12",
            ],
            100,
        ),
        (HistorianCall::LABELS, 60),
        (
            &[
                "R1", "R2", "R3", "R4", "R5", "R6", "R7", "R8", "R9", "R10", "R11", "R12", "R13",
                "R14", "R15", "R16",
            ],
            15,
        ),
        (
            &[
                "A", "R1", "R2", "R3", "R8", "R9", "R10", "R11", "R12", "R13", "R14", "R15", "R16",
            ],
            1,
        ),
        (&["A", "R10", "R16"], 18),
        (&["A", "R11"], 100),
        (&["A", "R10"], 100),
        (&["A"], 50),
        (&["A", "R12"], 100),
        (&["A", "R13"], 90),
        (&["R10", "R11", "R12", "R13", "R16"], 30),
        (&["A"], 300),
        (&["A"], 300),
        (&["A"], 10),
        (HistorianCall::LABELS, EACH_ANSWER_AT_LEAST),
    ];
    /// The largest file and the largest table that a test program must hold.
    const LARGEST_FILE: usize = 16_384;
    const LARGEST_TABLE: usize = 4096;

    #[test]
    fn suites_meet_each_answer_they_can() {
        assert_each_meets(&historian_suites(), &MET);
    }

    #[test]
    fn every_run_asks_the_same_cases() {
        assert_same_cases(&historian_suites(), &historian_suites());
    }

    #[test]
    fn files_and_tables_are_small_enough_for_a_test_program() {
        for HistorianCall { file, tables } in historian_suites().iter().flat_map(|s| &s.cases) {
            assert!(file.len() <= LARGEST_FILE);
            assert!(tables.plant.max(tables.segment) <= LARGEST_TABLE);
        }
    }
}
