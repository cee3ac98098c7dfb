//! The rows of plants and segments, as numbers and as text.

use super::emissions::Emissions;
use super::flow::{inflow_of, Amounts, Flow};
use super::records::{Period, Plant, Segment};
use crate::questions::spaced;
use std::fmt;

/// Kg of a tonne, for which one unit is given.
const KG_OF_A_UNIT: u64 = 1000;

/// The result of a plant.
#[derive(Debug, PartialEq, Eq)]
pub struct PlantRow {
    pub exported: u64,
    pub stored: u64,
    pub lost: u64,
    pub gross: u64,
    pub associated: u64,
    pub net: u64,
    pub units: u64,
    pub deficit: u64,
}

impl PlantRow {
    /// Numbers of a row.
    pub const NUMBERS: usize = 8;

    /// The result from what was stored and all emissions that belong to the plant.
    fn new(plant: &Plant, stored: u64, associated: u64) -> Self {
        let gross = share_of_origin(stored, plant.fraction);
        let net = gross.saturating_sub(associated);
        PlantRow {
            exported: plant.exported,
            stored,
            lost: plant.exported - stored,
            gross,
            associated,
            net,
            units: net / KG_OF_A_UNIT,
            deficit: associated.saturating_sub(gross),
        }
    }

    /// The row in the order of the paper.
    pub fn numbers(&self) -> [u64; PlantRow::NUMBERS] {
        [
            self.exported,
            self.stored,
            self.lost,
            self.gross,
            self.associated,
            self.net,
            self.units,
            self.deficit,
        ]
    }
}

/// The part of the stored amount that the origin fraction allows, rounded down.
fn share_of_origin(stored: u64, fraction: u64) -> u64 {
    let product = u128::from(stored) * u128::from(fraction);
    let share = product / u128::from(Plant::WHOLE_FRACTION);
    u64::try_from(share).expect("a fraction is at most the whole")
}

/// The result of a segment.
#[derive(Debug, PartialEq, Eq)]
pub struct SegmentRow {
    pub inflow: u64,
    pub outflow: u64,
    pub lost: u64,
    pub emission: u64,
    /// The set of plants whose route passes, plant p as bit p - 1.
    pub plants: u64,
}

impl SegmentRow {
    /// Numbers of a row.
    pub const NUMBERS: usize = 5;

    /// The result from the amounts that entered and the emission.
    fn new(segment: &Segment, entering: &Amounts, emission: u64) -> Self {
        let inflow = inflow_of(entering);
        SegmentRow {
            inflow,
            outflow: segment.outflow,
            lost: inflow - segment.outflow,
            emission,
            plants: entering.keys().map(|plant| 1_u64 << (plant - 1)).sum(),
        }
    }

    /// The row in the order of the paper.
    pub fn numbers(&self) -> [u64; SegmentRow::NUMBERS] {
        [
            self.inflow,
            self.outflow,
            self.lost,
            self.emission,
            self.plants,
        ]
    }
}

/// All rows of an accepted period.
#[derive(Debug, PartialEq, Eq)]
pub struct Rows {
    pub plants: Vec<PlantRow>,
    pub segments: Vec<SegmentRow>,
}

impl Rows {
    /// The rows from the emissions of the owners and the flow through the segments.
    pub fn new(period: &Period, emissions: &Emissions, flow: &Flow) -> Self {
        let plants = period.plants.iter().enumerate().map(|(index, plant)| {
            let associated = emissions.plants[index] + flow.charged[index];
            PlantRow::new(plant, flow.stored[index], associated)
        });
        let segments = period.segments.iter().enumerate().map(|(index, segment)| {
            SegmentRow::new(segment, &flow.entering[index], emissions.segments[index])
        });
        Rows {
            plants: plants.collect(),
            segments: segments.collect(),
        }
    }

    /// The numbers of the plant table.
    pub fn plant_numbers(&self) -> Vec<u64> {
        self.plants.iter().flat_map(PlantRow::numbers).collect()
    }

    /// The numbers of the segment table.
    pub fn segment_numbers(&self) -> Vec<u64> {
        self.segments.iter().flat_map(SegmentRow::numbers).collect()
    }
}

impl fmt::Display for Rows {
    fn fmt(&self, out: &mut fmt::Formatter) -> fmt::Result {
        for (index, row) in self.plants.iter().enumerate() {
            writeln!(out, "P {} {}", index + 1, spaced(&row.numbers()))?;
        }
        for (index, row) in self.segments.iter().enumerate() {
            writeln!(out, "S {} {}", index + 1, spaced(&row.numbers()))?;
        }
        Ok(())
    }
}

#[cfg(test)]
mod tests {
    use crate::numbers::writing::write_numbers;
    use crate::periods::accounts::{account, Tables};

    fn rows_of(numbers: &[u64]) -> String {
        let rows = account(&write_numbers(numbers), Tables::LARGE_ENOUGH);
        rows.expect("the period is accepted").to_string()
    }

    #[test]
    fn fraction_does_not_change_the_shares() {
        let numbers = [
            1, 2, 1, 0, //
            1000, 1, 0, 1000, 1, 1_000_000, //
            6, 1500, 0,
        ];
        assert_eq!(
            rows_of(&numbers),
            "P 1 1000 750 250 0 0 0 0 0\n\
             P 2 1000 750 250 750 0 750 0 0\n\
             S 1 2000 1500 500 0 3\n"
        );
    }

    #[test]
    fn a_low_fraction_lowers_no_charge() {
        let numbers = [
            1, 1, 1, 1, //
            5000, 1, 500_000, //
            6, 5000, 0, //
            1, 1, 3, 100, 1000,
        ];
        assert_eq!(
            rows_of(&numbers),
            "P 1 5000 5000 0 2500 100 2400 2 0\nS 1 5000 5000 0 100 1\n"
        );
    }

    #[test]
    fn plant_that_exports_nothing_belongs_to_the_set() {
        let numbers = [
            1, 3, 2, 0, //
            10, 1, 1_000_000, 0, 1, 1_000_000, 0, 2, 1_000_000, //
            1, 10, 2, //
            6, 9, 0,
        ];
        assert_eq!(
            rows_of(&numbers),
            "P 1 10 9 1 9 0 9 0 0\n\
             P 2 0 0 0 0 0 0 0 0\n\
             P 3 0 0 0 0 0 0 0 0\n\
             S 1 10 10 0 0 3\n\
             S 2 10 9 1 0 7\n"
        );
    }

    #[test]
    fn segment_that_no_route_passes_has_a_row() {
        let numbers = [
            1, 1, 2, 1, //
            1999, 2, 999_999, //
            6, 0, 0, //
            6, 1999, 0, //
            0, 1, 1, 1, 1,
        ];
        assert_eq!(
            rows_of(&numbers),
            "P 1 1999 1999 0 1998 1 1997 1 0\n\
             S 1 0 0 0 0 0\n\
             S 2 1999 1999 0 0 1\n"
        );
    }

    #[test]
    fn net_and_deficit_are_never_both_above_zero() {
        let with_grams = |grams| {
            let numbers = [
                1, 1, 1, 1, //
                1000, 1, 1_000_000, //
                6, 1000, 0, //
                0, 1, 1, 1, grams,
            ];
            rows_of(&numbers)
        };
        let segment = "S 1 1000 1000 0 0 1\n";
        let expected = [
            (0, "P 1 1000 1000 0 1000 0 1000 1 0\n"),
            (1, "P 1 1000 1000 0 1000 1 999 0 0\n"),
            (1_000_000, "P 1 1000 1000 0 1000 1000 0 0 0\n"),
            (1_000_001, "P 1 1000 1000 0 1000 1001 0 0 1\n"),
        ];
        for (grams, plant) in expected {
            assert_eq!(with_grams(grams), format!("{plant}{segment}"));
        }
    }

    #[test]
    fn sixteenth_plant_has_the_highest_bit() {
        let mut numbers = vec![1, 16, 2, 0];
        for _ in 0..15 {
            numbers.extend([0, 1, 0]);
        }
        numbers.extend([0, 2, 0, 6, 0, 0, 6, 0, 0]);
        let rows = rows_of(&numbers);
        assert!(rows.ends_with("S 1 0 0 0 0 32767\nS 2 0 0 0 0 32768\n"));
    }
}
