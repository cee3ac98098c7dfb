//! Calls whose tables have every length beside the one that is needed.

use super::call::HistorianCall;
use super::table_bytes::{TableBytes, NUMBER_BYTES};
use crate::numbers::writing::write_numbers;
use crate::periods::account_limits::full_size::{PLANTS, SEGMENTS};
use crate::periods::account_limits::longest::longest_accepted;
use crate::periods::accounts::Tables;
use crate::periods::paper::{whole_period, TABLES};
use crate::periods::seeded::period_cases::full_size_files;
use crate::periods::suites::whole_files::longest;

/// How many bytes past its need a table of the whole period gets at most.
const BYTES_PAST_NEED: usize = 2 * NUMBER_BYTES;
/// The seed of the full-size files.
const SEED_OF_FILES: u64 = 0x5EED_000A;
/// How many numbers a table has that is far larger than needed.
const NUMBERS_TOO_MANY: usize = 100;

/// The whole period with every length of both tables, from none to some bytes past the need.
pub fn of_whole_period() -> Vec<HistorianCall> {
    let needed = TableBytes::of(TABLES);
    let mut calls = Vec::new();
    for plant in 0..=needed.plant + BYTES_PAST_NEED {
        for segment in 0..=needed.segment + BYTES_PAST_NEED {
            calls.push(HistorianCall {
                file: whole_period(),
                tables: TableBytes { plant, segment },
            });
        }
    }
    calls
}

/// Full-size files, accepted and refused for every reason and the longest ones, with tables of all
/// lengths around the need.
pub fn of_full_size_files() -> Vec<HistorianCall> {
    let needed = TableBytes::of(Tables::just_for(PLANTS, SEGMENTS));
    let mut files = full_size_files(SEED_OF_FILES);
    files.push(write_numbers(&longest()));
    files.push(write_numbers(&longest_accepted().numbers()));
    let mut calls = Vec::new();
    for file in files {
        for plant in lengths_around(needed.plant) {
            for segment in lengths_around(needed.segment) {
                calls.push(HistorianCall {
                    file: file.clone(),
                    tables: TableBytes { plant, segment },
                });
            }
        }
    }
    calls
}

/// No bytes; a number and a byte short; just enough; with spare bytes, a number and many more.
fn lengths_around(needed: usize) -> [usize; 8] {
    [
        0,
        needed - NUMBER_BYTES,
        needed - 1,
        needed,
        needed + 1,
        needed + NUMBER_BYTES - 1,
        needed + NUMBER_BYTES,
        needed + NUMBERS_TOO_MANY * NUMBER_BYTES,
    ]
}

#[cfg(test)]
mod tests {
    use super::*;
    use crate::compare::tally::Tally;
    use crate::questions::Question;

    #[test]
    fn whole_period_has_every_length_of_both_tables() {
        let calls = of_whole_period();
        assert_eq!(calls.len(), (128 + 16 + 1) * (80 + 16 + 1));
        let tally = Tally::of(&calls);
        assert_eq!(tally.count("R14"), 128 * (80 + 16 + 1));
        assert_eq!(tally.count("R15"), (16 + 1) * 80);
        assert_eq!(tally.count("A"), (16 + 1) * (16 + 1));
    }

    #[test]
    fn full_size_files_meet_every_answer() {
        let tally = Tally::of(&of_full_size_files());
        for label in HistorianCall::LABELS {
            assert!(tally.count(label) > 0, "{tally}");
        }
    }
}
