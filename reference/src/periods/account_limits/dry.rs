//! Emissions of segments without inflow: refusal 13.

use super::full_size::{
    each_at_its_store, full_size, next_in_row, set_grams, set_kg, share_export, through_all,
    PLANTS, SEGMENTS,
};
use crate::numbers::number::LIMIT;
use crate::periods::outflows::choose_outflows;
use crate::periods::records::{Owner, Period};
use crate::seeded::Seeded;

/// The seed of the exports.
const SEED_OF_EXPORTS: u64 = 0x5EED_0008;
/// The line that gives a segment its grams.
const LINE: usize = 300;
/// The grams of a segment without inflow: none, and the fewest that are a kg.
const GRAMS: [u64; 2] = [0, 1];

/// Every segment without inflow, because nothing is exported, because nothing comes out of the
/// segment before, and because no route passes; with grams and without. And plants whose
/// emissions need no inflow.
pub fn with_and_without_grams() -> Vec<Period> {
    let mut seeded = Seeded::new(SEED_OF_EXPORTS);
    let mut periods = vec![plants_without_exports()];
    for segment in 1..=SEGMENTS {
        periods.push(largest_emission(segment));
        for grams in GRAMS {
            periods.push(nothing_exported(segment, grams));
            if segment > 1 {
                periods.push(nothing_comes_out_before(segment, grams, &mut seeded));
            }
            if segment < SEGMENTS {
                periods.push(no_route_passes(segment, grams, &mut seeded));
            }
        }
    }
    periods
}

/// All routes pass the segment, but nothing is exported.
fn nothing_exported(segment: usize, grams: u64) -> Period {
    let mut period = through_all();
    set_grams(&mut period, LINE, Owner::Segment(segment), grams);
    period
}

/// As `nothing_exported`, with the largest emission.
fn largest_emission(segment: usize) -> Period {
    let mut period = through_all();
    set_kg(&mut period, LINE, Owner::Segment(segment), LIMIT);
    period
}

/// Much is exported, and nothing comes out of the segment before this one.
fn nothing_comes_out_before(segment: usize, grams: u64, seeded: &mut Seeded) -> Period {
    let mut period = through_all();
    share_export(&mut period, 1..=PLANTS, LIMIT, seeded);
    choose_outflows(
        &mut period,
        |number, inflow| {
            if number == segment - 1 {
                0
            } else {
                inflow
            }
        },
    );
    set_kg(&mut period, 1, Owner::Segment(segment - 1), LIMIT);
    set_grams(&mut period, LINE, Owner::Segment(segment), grams);
    period
}

/// Much is exported, and all plants start behind the segment.
fn no_route_passes(segment: usize, grams: u64, seeded: &mut Seeded) -> Period {
    let mut period = full_size(|_| segment + 1, next_in_row);
    share_export(&mut period, 1..=PLANTS, LIMIT, seeded);
    choose_outflows(&mut period, |_, inflow| inflow);
    set_grams(&mut period, LINE, Owner::Segment(segment), grams);
    period
}

/// Plants that export nothing emit as much as can be.
fn plants_without_exports() -> Period {
    let mut period = each_at_its_store();
    for plant in 1..=PLANTS {
        set_kg(&mut period, plant, Owner::Plant(plant), LIMIT);
    }
    period
}

#[cfg(test)]
mod tests {
    use super::super::answers::{answer, rows};
    use super::*;

    #[test]
    fn grams_without_inflow_are_refused_at_their_segment() {
        let mut seeded = Seeded::new(1);
        for segment in 1..=SEGMENTS {
            let refused = format!("R 13 {segment}");
            assert_eq!(answer(&largest_emission(segment)), refused);
            for (grams, expected) in [(0, "A"), (1, &refused)] {
                assert_eq!(answer(&nothing_exported(segment, grams)), expected);
                if segment > 1 {
                    let period = nothing_comes_out_before(segment, grams, &mut seeded);
                    assert_eq!(answer(&period), expected);
                }
                if segment < SEGMENTS {
                    let period = no_route_passes(segment, grams, &mut seeded);
                    assert_eq!(answer(&period), expected);
                }
            }
        }
    }

    #[test]
    fn plants_need_no_inflow_for_their_emissions() {
        let rows = rows(&plants_without_exports());
        assert!(rows.plants.iter().all(|row| row.deficit == LIMIT));
    }
}
