//! The whole of the paper in its order: from the bytes of a file to the rows.

use super::emissions::{emissions_of, gram_totals_of};
use super::flow::flow_of;
use super::reading::read_numbers;
use super::records::Period;
use super::rows::{PlantRow, Rows, SegmentRow};
use crate::refusal::{Placed, Reason, Refused};

/// How many numbers the two tables of the caller hold.
#[derive(Clone, Copy, Debug, PartialEq, Eq)]
pub struct Tables {
    pub plant: usize,
    pub segment: usize,
}

impl Tables {
    /// Tables that hold the rows of any period.
    pub const LARGE_ENOUGH: Tables = Tables {
        plant: usize::MAX,
        segment: usize::MAX,
    };

    /// Tables that hold the rows of this many plants and segments and no more.
    pub fn just_for(plants: usize, segments: usize) -> Self {
        Tables {
            plant: plants * PlantRow::NUMBERS,
            segment: segments * SegmentRow::NUMBERS,
        }
    }

    /// Tests that the rows of the period fit: refusals 14 and 15.
    fn check(self, period: &Period) -> Result<(), Placed> {
        let needed = Tables::just_for(period.plants.len(), period.segments.len());
        if self.plant < needed.plant {
            return Err(Reason::PlantTableShort.at(needed.plant));
        }
        if self.segment < needed.segment {
            return Err(Reason::SegmentTableShort.at(needed.segment));
        }
        Ok(())
    }
}

/// The rows of the period that the file holds, or the first refusal. A line is found by its first
/// byte; plants, segments and tables have no byte of their own here, and the whole file was read by
/// then.
pub fn account(file: &[u8], tables: Tables) -> Result<Rows, Refused> {
    let numbers = read_numbers(file)?;
    let period = Period::from_numbers(numbers.numbers());
    let at_line = |refused: Placed| {
        let first_number = period.place_of_line(refused.place);
        refused.with_offset(numbers.offset_of(first_number))
    };
    let behind_all = |refused: Placed| refused.with_offset(file.len() as u64);

    let totals = gram_totals_of(&period).map_err(at_line)?;
    let emissions = emissions_of(&totals).map_err(behind_all)?;
    let flow = flow_of(&period, &emissions.segments).map_err(behind_all)?;
    tables.check(&period).map_err(behind_all)?;
    Ok(Rows::new(&period, &emissions, &flow))
}

/// What is printed for a file: its rows, or its refusal in one line.
pub fn printed(accounted: &Result<Rows, Refused>) -> String {
    match accounted {
        Ok(rows) => rows.to_string(),
        Err(refused) => format!("{refused}\n"),
    }
}

#[cfg(test)]
mod tests {
    use super::*;
    use crate::numbers::writing::{with_values, write_numbers};
    use crate::periods::paper::{whole_period, WHOLE_PERIOD};

    /// Changes of the whole period that are each refused by themselves.
    const GRAMS_PAST_LIMIT: [(usize, u64); 2] = [(19, 4_000_000_000), (20, 1001)];
    const OUTFLOW_OVER_INFLOW: [(usize, u64); 1] = [(11, 15_002)];
    const NOTHING_EXPORTED: [(usize, u64); 4] = [(4, 0), (7, 0), (11, 0), (14, 0)];
    const CAPTURED_WITHOUT_FUEL: [(usize, u64); 3] = [(18, 9), (19, 1), (20, 1000)];

    const EMPTY_TABLES: Tables = Tables {
        plant: 0,
        segment: 0,
    };

    /// The refusal of the whole period with the changes, in tables that hold nothing.
    fn refused_with(changes: &[&[(usize, u64)]]) -> String {
        let numbers = with_values(&WHOLE_PERIOD, &changes.concat());
        refused(&write_numbers(&numbers), EMPTY_TABLES)
    }

    fn refused(file: &[u8], tables: Tables) -> String {
        let refused = account(file, tables).expect_err("the file is refused");
        refused.to_string()
    }

    #[test]
    fn rows_of_the_whole_period() {
        let rows = account(&whole_period(), Tables::just_for(2, 2));
        assert_eq!(
            rows.expect("the period is accepted").to_string(),
            "P 1 10000 9931 69 9931 879 9052 9 0\n\
             P 2 5001 4968 33 4471 90 4381 4 0\n\
             S 1 15001 14900 101 268 3\n\
             S 2 14900 14899 1 0 3\n"
        );
    }

    #[test]
    fn bytes_after_come_before_grams() {
        let numbers = with_values(&WHOLE_PERIOD, &GRAMS_PAST_LIMIT);
        let file = [write_numbers(&numbers), vec![0]].concat();
        assert_eq!(refused(&file, EMPTY_TABLES), "R 9 26 40");
    }

    #[test]
    fn grams_come_before_flow() {
        assert_eq!(
            refused_with(&[&OUTFLOW_OVER_INFLOW, &GRAMS_PAST_LIMIT]),
            "R 10 1 24"
        );
        assert_eq!(
            refused_with(&[&NOTHING_EXPORTED, &GRAMS_PAST_LIMIT]),
            "R 10 1 20"
        );
    }

    #[test]
    fn captured_grams_come_between_gram_totals_and_flow() {
        let second_past_limit: [(usize, u64); 2] = [(24, 4_000_000_000), (25, 1001)];
        assert_eq!(refused_with(&[&CAPTURED_WITHOUT_FUEL]), "R 16 1 36");
        assert_eq!(
            refused_with(&[&CAPTURED_WITHOUT_FUEL, &second_past_limit]),
            "R 10 2 30"
        );
        assert_eq!(
            refused_with(&[&CAPTURED_WITHOUT_FUEL, &OUTFLOW_OVER_INFLOW]),
            "R 16 1 36"
        );
        assert_eq!(
            refused_with(&[&CAPTURED_WITHOUT_FUEL, &NOTHING_EXPORTED]),
            "R 16 1 32"
        );
    }

    #[test]
    fn outflow_comes_before_emission_at_a_segment() {
        let one_kg_out: [(usize, u64); 1] = [(11, 1)];
        assert_eq!(refused_with(&[&NOTHING_EXPORTED, &one_kg_out]), "R 12 1 33");
        let one_kg_out_later: [(usize, u64); 1] = [(14, 1)];
        assert_eq!(
            refused_with(&[&NOTHING_EXPORTED, &one_kg_out_later]),
            "R 13 1 33"
        );
    }

    #[test]
    fn flow_comes_before_tables() {
        assert_eq!(refused_with(&[&OUTFLOW_OVER_INFLOW]), "R 12 1 37");
        assert_eq!(refused_with(&[&NOTHING_EXPORTED]), "R 13 1 33");
    }

    #[test]
    fn line_has_its_first_byte_whatever_is_behind_it() {
        let second_past_limit: [(usize, u64); 2] = [(24, 4_000_000_000), (25, 1001)];
        let long_line_before: [(usize, u64); 2] = [(19, 1_000_000_000), (20, 4000)];
        assert_eq!(refused_with(&[&second_past_limit]), "R 10 2 31");
        assert_eq!(
            refused_with(&[&second_past_limit, &long_line_before]),
            "R 10 2 34"
        );
    }

    #[test]
    fn plant_table_comes_before_segment_table() {
        let enough = Tables::just_for(2, 2);
        assert_eq!(refused(&whole_period(), EMPTY_TABLES), "R 14 16 37");
        let plant_short = Tables {
            plant: 15,
            ..enough
        };
        assert_eq!(refused(&whole_period(), plant_short), "R 14 16 37");
        let segment_short = Tables {
            segment: 9,
            ..enough
        };
        assert_eq!(refused(&whole_period(), segment_short), "R 15 10 37");
    }
}
