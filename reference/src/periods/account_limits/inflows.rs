//! The inflow of a segment at its limit and past it: refusal 11.

use super::full_size::{
    export_each, full_size, let_all_pass, next_in_row, set_kg, share_export, through_all, PLANTS,
    SEGMENTS,
};
use crate::numbers::number::LIMIT;
use crate::periods::records::{Owner, Period};
use crate::seeded::Seeded;

/// The first sum that 32 bits cannot hold.
pub const TURNS_OVER: u64 = 1 << 32;
/// Inflows around the limit and around where 32 bits turn over.
const INFLOWS: [u64; 6] = [
    LIMIT - 1,
    LIMIT,
    LIMIT + 1,
    TURNS_OVER - 1,
    TURNS_OVER,
    TURNS_OVER + 1,
];
/// What the plants that come first bring together: the others bring the rest.
const OF_THE_FIRST: u64 = LIMIT / 2;
/// How many segments come before one where two branches meet.
const BRANCHES: usize = 2;
/// The seed of the exports.
const SEED_OF_EXPORTS: u64 = 0x5EED_0006;

/// Every segment with every inflow, brought by a late plant and by branches that meet, and all
/// plants with the largest export.
pub fn around_limit() -> Vec<Period> {
    let mut seeded = Seeded::new(SEED_OF_EXPORTS);
    let mut periods = vec![largest_exports()];
    for segment in 1..=SEGMENTS {
        for inflow in INFLOWS {
            periods.push(late_plant(1, segment, inflow, &mut seeded));
            periods.push(late_plant(PLANTS, segment, inflow, &mut seeded));
            if segment > BRANCHES {
                periods.push(branches_meet(segment, inflow, &mut seeded));
            }
        }
    }
    periods
}

/// One plant starts at the segment, to which all others come through all before it, and brings
/// it to the inflow. The emission there is the largest too.
fn late_plant(late: usize, segment: usize, inflow: u64, seeded: &mut Seeded) -> Period {
    let mut period = through_all();
    let others = (1..=PLANTS).filter(|&plant| plant != late);
    share_export(&mut period, others, OF_THE_FIRST, seeded);
    period.plants[late - 1].exported = inflow - OF_THE_FIRST;
    period.plants[late - 1].first_segment = segment;
    set_kg(&mut period, 1, Owner::Segment(segment), LIMIT);
    let_all_pass(&mut period);
    period
}

/// Two branches of one segment each, the plants in turn on the one and the other, meet at the
/// segment and bring it to the inflow.
fn branches_meet(segment: usize, inflow: u64, seeded: &mut Seeded) -> Period {
    let first_branch = segment - BRANCHES;
    let mut period = full_size(
        |plant| first_branch + plant % BRANCHES,
        |own| {
            if own == first_branch {
                segment
            } else {
                next_in_row(own)
            }
        },
    );
    let on_branch = |branch| (1..=PLANTS).filter(move |plant| plant % BRANCHES == branch);
    share_export(&mut period, on_branch(0), OF_THE_FIRST, seeded);
    share_export(&mut period, on_branch(1), inflow - OF_THE_FIRST, seeded);
    set_kg(&mut period, 1, Owner::Segment(segment), LIMIT);
    let_all_pass(&mut period);
    period
}

/// All plants export as much as can be.
fn largest_exports() -> Period {
    let mut period = through_all();
    export_each(&mut period, |_| LIMIT);
    let_all_pass(&mut period);
    period
}

#[cfg(test)]
mod tests {
    use super::super::answers::{answer, rows};
    use super::*;

    #[test]
    fn inflow_past_the_limit_is_refused_at_its_segment() {
        let mut seeded = Seeded::new(1);
        for segment in 1..=SEGMENTS {
            for inflow in INFLOWS {
                let expected = if inflow <= LIMIT {
                    "A".to_string()
                } else {
                    format!("R 11 {segment}")
                };
                for late in [1, PLANTS] {
                    let period = late_plant(late, segment, inflow, &mut seeded);
                    assert_eq!(answer(&period), expected);
                }
                if segment > BRANCHES {
                    let period = branches_meet(segment, inflow, &mut seeded);
                    assert_eq!(answer(&period), expected);
                }
            }
        }
        assert_eq!(answer(&largest_exports()), "R 11 1");
    }

    #[test]
    fn all_routes_pass_the_segment_with_the_inflow() {
        let mut seeded = Seeded::new(1);
        for period in [
            late_plant(1, 20, LIMIT, &mut seeded),
            branches_meet(20, LIMIT, &mut seeded),
        ] {
            let row = &rows(&period).segments[19];
            assert_eq!(
                (row.inflow, row.emission, row.plants),
                (LIMIT, LIMIT, 0xFFFF)
            );
        }
    }
}
