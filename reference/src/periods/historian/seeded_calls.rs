//! Seeded calls: the seeded cases of the whole of the paper, their tables with spare bytes.

use super::call::HistorianCall;
use super::table_bytes::NUMBER_BYTES;
use crate::periods::case::PeriodCase;
use crate::periods::seeded::period_cases::seeded_cases;
use crate::seeded::Seeded;

/// The seeds of the cases and of the spare bytes.
const SEED_OF_CASES: u64 = 0x5EED_000B;
const SEED_OF_SPARE_BYTES: u64 = 0x5EED_000C;
/// One table in this many has no spare bytes.
const TABLES_TO_ONE_WITHOUT: usize = 2;

/// `count` seeded calls.
pub fn seeded_calls(count: usize) -> Vec<HistorianCall> {
    let mut seeded = Seeded::new(SEED_OF_SPARE_BYTES);
    seeded_cases(SEED_OF_CASES)
        .take(count)
        .map(|case| with_spare_bytes(case, &mut seeded))
        .collect()
}

/// The call for the case, each table with spare bytes or without.
fn with_spare_bytes(case: PeriodCase, seeded: &mut Seeded) -> HistorianCall {
    let mut call = HistorianCall::of(case);
    call.tables.plant += spare_bytes(seeded);
    call.tables.segment += spare_bytes(seeded);
    call
}

/// Fewer bytes than a number has, often none.
fn spare_bytes(seeded: &mut Seeded) -> usize {
    if seeded.one_in(TABLES_TO_ONE_WITHOUT) {
        0
    } else {
        1 + seeded.up_to(NUMBER_BYTES - 2)
    }
}

#[cfg(test)]
mod tests {
    use super::*;
    use crate::periods::accounts::Tables;
    use crate::periods::historian::table_bytes::TableBytes;
    use crate::periods::reading::read_period;
    use std::collections::BTreeSet;

    /// How the length of a table fits the need.
    #[derive(Clone, Copy, Debug, PartialEq, Eq, PartialOrd, Ord)]
    enum Fit {
        Empty,
        NumberShort,
        ByteShort,
        OtherwiseShort,
        Exact,
        Spare(usize),
        Larger,
    }

    fn fit(length: usize, needed: usize) -> Fit {
        if length == 0 {
            Fit::Empty
        } else if length + NUMBER_BYTES == needed {
            Fit::NumberShort
        } else if length + 1 == needed {
            Fit::ByteShort
        } else if length < needed {
            Fit::OtherwiseShort
        } else if length < needed + NUMBER_BYTES {
            match length - needed {
                0 => Fit::Exact,
                spare => Fit::Spare(spare),
            }
        } else {
            Fit::Larger
        }
    }

    #[test]
    fn tables_fit_in_every_way_each_and_both() {
        let mut met = BTreeSet::new();
        for call in seeded_calls(60_000) {
            if let Ok(period) = read_period(&call.file) {
                let needed = Tables::just_for(period.plants.len(), period.segments.len());
                let needed = TableBytes::of(needed);
                met.insert((
                    fit(call.tables.plant, needed.plant),
                    fit(call.tables.segment, needed.segment),
                ));
            }
        }
        let mut fits = vec![
            Fit::Empty,
            Fit::NumberShort,
            Fit::ByteShort,
            Fit::Exact,
            Fit::Larger,
        ];
        fits.extend((1..NUMBER_BYTES).map(Fit::Spare));
        for &plant in &fits {
            for &segment in &fits {
                let both = (plant, segment);
                assert!(met.contains(&both), "{both:?}");
            }
        }
    }

    #[test]
    fn every_run_asks_the_same_calls() {
        assert_eq!(seeded_calls(100), seeded_calls(100));
    }
}
