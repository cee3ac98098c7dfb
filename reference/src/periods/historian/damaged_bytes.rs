//! Calls with files that are damaged at each byte.

use super::call::HistorianCall;
use super::table_bytes::TableBytes;
use crate::file_bytes::{cuts_of, each_byte_changed, every_value, telling_values};
use crate::numbers::writing::write_numbers;
use crate::periods::accounts::Tables;
use crate::periods::paper::WHOLE_PERIOD;
use crate::periods::records::{PLANTS_AT, SEGMENTS_AT};
use crate::periods::suites::bytes::tails;
use crate::periods::suites::whole_files::EVERY_CLASS;

/// The whole period with each byte changed to each value and a longer file with each byte changed
/// to some, every cut of both, and both followed by bytes.
pub fn of_two_files() -> Vec<HistorianCall> {
    let mut calls = calls_with(&WHOLE_PERIOD, every_value);
    calls.extend(calls_with(&EVERY_CLASS, telling_values));
    calls
}

/// The calls with the damaged file of these numbers, the tables just enough for the whole one.
fn calls_with(numbers: &[u64], values_for: impl Fn(u8) -> Vec<u8>) -> Vec<HistorianCall> {
    let whole = write_numbers(numbers);
    let mut files = cuts_of(&whole);
    files.extend(each_byte_changed(&whole, values_for));
    let tails = tails().into_iter();
    files.extend(tails.map(|tail| [&whole[..], &tail].concat()));

    let (plants, segments) = (numbers[PLANTS_AT], numbers[SEGMENTS_AT]);
    let tables = TableBytes::of(Tables::just_for(plants as usize, segments as usize));
    files
        .into_iter()
        .map(|file| HistorianCall { file, tables })
        .collect()
}

#[cfg(test)]
mod tests {
    use super::*;
    use crate::compare::tally::Tally;

    #[test]
    fn damage_is_refused_in_many_ways_and_sometimes_accepted() {
        const AT_LEAST: usize = 10;
        for numbers in [&WHOLE_PERIOD[..], &EVERY_CLASS] {
            let tally = Tally::of(&calls_with(numbers, telling_values));
            for label in ["A", "R1", "R6", "R7", "R8", "R9", "R12"] {
                assert!(tally.count(label) >= AT_LEAST, "{tally}");
            }
        }
    }
}
