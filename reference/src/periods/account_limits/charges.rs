//! Charges of emissions that can be shared exactly, and of those one kg beside.

use super::full_size::{
    export_each, let_all_pass, set_grams, set_kg, through_all, LINES, PLANTS, SEGMENTS,
};
use crate::numbers::number::LIMIT;
use crate::periods::records::{Owner, Period};

/// The segments that emit.
const EMITTING: [usize; 3] = [1, 16, SEGMENTS];
/// Multiples of the inflow that are emitted, besides the largest that can be.
const MULTIPLES: [u64; 3] = [1, 2, 1000];
/// What a single plant exports: the least and the most.
const EXPORTS_OF_ONE: [u64; 2] = [1, LIMIT];

/// What the plants export.
#[derive(Clone, Copy, Debug)]
enum Exports {
    /// Each one kg.
    OneKg,
    /// Each its own number of kg.
    OwnNumber,
    /// Each the same share of the limit.
    EvenShare,
}

const EXPORTS: [Exports; 3] = [Exports::OneKg, Exports::OwnNumber, Exports::EvenShare];

impl Exports {
    /// What a plant exports.
    fn kg(self, plant: usize) -> u64 {
        match self {
            Exports::OneKg => 1,
            Exports::OwnNumber => plant as u64,
            Exports::EvenShare => LIMIT / PLANTS as u64,
        }
    }

    /// What all plants export.
    fn total(self) -> u64 {
        (1..=PLANTS).map(|plant| self.kg(plant)).sum()
    }
}

/// Emissions at multiples of the inflow and one kg beside them, emissions that are a gram above
/// a kg, and the largest emissions with one plant that bears them all.
pub fn beside_exact_shares() -> Vec<Period> {
    let mut periods = Vec::new();
    for exports in EXPORTS {
        for emission in emissions_for(exports) {
            for segment in EMITTING {
                periods.push(emitted(exports, segment, emission));
                if emission > 0 {
                    periods.push(one_gram_above(exports, segment, emission - 1));
                }
            }
        }
    }
    for plant in 1..=PLANTS {
        periods.extend(EXPORTS_OF_ONE.map(|kg| single_exporter(plant, kg)));
    }
    periods
}

/// Multiples of the inflow, small, larger and the largest; if the inflow is so large that it has
/// no others, multiples of the count of plants; and the emissions one kg beside each.
fn emissions_for(exports: Exports) -> Vec<u64> {
    let mut emissions = vec![0, LIMIT];
    for whole in [exports.total(), PLANTS as u64] {
        for multiple in MULTIPLES.into_iter().chain([LIMIT / whole]) {
            let exact = multiple * whole;
            emissions.extend([exact - 1, exact, exact + 1]);
        }
    }
    emissions.retain(|&emission| emission <= LIMIT);
    emissions.sort_unstable();
    emissions.dedup();
    emissions
}

/// All plants through all segments with such exports; nothing is lost.
fn nothing_lost(kg_of_plant: impl Fn(usize) -> u64) -> Period {
    let mut period = through_all();
    export_each(&mut period, kg_of_plant);
    let_all_pass(&mut period);
    period
}

/// The segment emits `kg` kg.
fn emitted(exports: Exports, segment: usize, kg: u64) -> Period {
    let mut period = nothing_lost(|plant| exports.kg(plant));
    set_kg(&mut period, 1, Owner::Segment(segment), kg);
    period
}

/// The segment emits `kg` kg and, in the last line, one gram.
fn one_gram_above(exports: Exports, segment: usize, kg: u64) -> Period {
    let mut period = emitted(exports, segment, kg);
    set_grams(&mut period, LINES, Owner::Segment(segment), 1);
    period
}

/// Only one plant exports, and every segment and every plant emits as much as can be.
fn single_exporter(exporter: usize, kg: u64) -> Period {
    let mut period = nothing_lost(|plant| if plant == exporter { kg } else { 0 });
    for segment in 1..=SEGMENTS {
        set_kg(&mut period, segment, Owner::Segment(segment), LIMIT);
    }
    for plant in 1..=PLANTS {
        set_kg(&mut period, SEGMENTS + plant, Owner::Plant(plant), LIMIT);
    }
    period
}

#[cfg(test)]
mod tests {
    use super::super::answers::{answer, rows};
    use super::*;

    /// All emissions of each plant: its charges, if it emits nothing itself.
    fn associated(period: &Period) -> Vec<u64> {
        let rows = rows(period);
        rows.plants.iter().map(|row| row.associated).collect()
    }

    #[test]
    fn all_are_accepted() {
        for period in beside_exact_shares() {
            assert_eq!(answer(&period), "A");
        }
    }

    #[test]
    fn exact_share_is_not_rounded_and_one_kg_more_is() {
        for exports in [Exports::OneKg, Exports::EvenShare] {
            assert_eq!(associated(&emitted(exports, 16, 32)), [2; PLANTS]);
            assert_eq!(associated(&emitted(exports, 16, 33)), [3; PLANTS]);
            assert_eq!(associated(&one_gram_above(exports, 16, 32)), [3; PLANTS]);
        }
        let own: Vec<u64> = (1..=16).collect();
        let total = Exports::OwnNumber.total();
        assert_eq!(associated(&emitted(Exports::OwnNumber, 32, total)), own);
        let above: Vec<u64> = (2..=17).collect();
        assert_eq!(
            associated(&emitted(Exports::OwnNumber, 32, total + 1)),
            above
        );
    }

    #[test]
    fn emissions_hold_the_largest_multiples() {
        let emissions = emissions_for(Exports::OwnNumber);
        let largest = LIMIT / 136 * 136;
        for emission in [0, 135, 136, 137, largest - 1, largest, largest + 1, LIMIT] {
            assert!(emissions.contains(&emission), "{emission}");
        }
        assert!(emissions_for(Exports::EvenShare).contains(&(LIMIT - 1)));
    }

    #[test]
    fn single_exporter_is_charged_all_emissions() {
        for kg in EXPORTS_OF_ONE {
            let associated = associated(&single_exporter(3, kg));
            assert_eq!(associated[2], 33 * LIMIT);
            assert_eq!(associated[3], LIMIT);
        }
    }
}
