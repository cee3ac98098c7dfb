//! The outflow of a segment beside its inflow: refusal 12.

use super::full_size::{set_kg, share_export, through_all, PLANTS, SEGMENTS};
use crate::numbers::number::LIMIT;
use crate::periods::outflows::choose_outflows;
use crate::periods::records::{Owner, Period};
use crate::seeded::Seeded;

/// The seed of the exports.
const SEED_OF_EXPORTS: u64 = 0x5EED_0007;
/// What all plants export together: below the limit, so that an outflow can be above.
const EXPORTED: u64 = LIMIT - 2;
/// What the segment emits, in kg.
const EMISSION: u64 = 1_000_003;

/// What leaves a segment.
#[derive(Clone, Copy, Debug, PartialEq, Eq)]
enum Outflow {
    All,
    AllButOneKg,
    OneKg,
    Nothing,
    OneKgMore,
    Largest,
}

const OUTFLOWS: [Outflow; 6] = [
    Outflow::All,
    Outflow::AllButOneKg,
    Outflow::OneKg,
    Outflow::Nothing,
    Outflow::OneKgMore,
    Outflow::Largest,
];

impl Outflow {
    /// The kg that leave, with this inflow.
    fn kg(self, inflow: u64) -> u64 {
        match self {
            Outflow::All => inflow,
            Outflow::AllButOneKg => inflow - 1,
            Outflow::OneKg => 1,
            Outflow::Nothing => 0,
            Outflow::OneKgMore => inflow + 1,
            Outflow::Largest => LIMIT,
        }
    }
}

/// Every segment with every outflow, with much inflow and with none; and a kg less out of each
/// segment than flows in.
pub fn beside_inflow() -> Vec<Period> {
    let mut seeded = Seeded::new(SEED_OF_EXPORTS);
    let mut periods = vec![one_kg_lost_at_each(&mut seeded)];
    for segment in 1..=SEGMENTS {
        for outflow in OUTFLOWS {
            periods.push(much_flows(segment, outflow, &mut seeded));
        }
        periods.push(nothing_flows(segment, 0));
        periods.push(nothing_flows(segment, 1));
        periods.push(nothing_flows(segment, LIMIT));
    }
    periods
}

/// All plants through all segments, together little below the limit.
fn much_exported(seeded: &mut Seeded) -> Period {
    let mut period = through_all();
    share_export(&mut period, 1..=PLANTS, EXPORTED, seeded);
    period
}

/// This segment has the outflow, out of the others comes all that flows in.
fn much_flows(segment: usize, outflow: Outflow, seeded: &mut Seeded) -> Period {
    let mut period = much_exported(seeded);
    set_kg(&mut period, 1, Owner::Segment(segment), EMISSION);
    choose_outflows(&mut period, |number, inflow| {
        if number == segment {
            outflow.kg(inflow)
        } else {
            inflow
        }
    });
    period
}

/// Nothing is exported, yet this outflow is metered at the end of the segment.
fn nothing_flows(segment: usize, outflow: u64) -> Period {
    let mut period = through_all();
    period.segments[segment - 1].outflow = outflow;
    period
}

/// Every segment loses one kg.
fn one_kg_lost_at_each(seeded: &mut Seeded) -> Period {
    let mut period = much_exported(seeded);
    choose_outflows(&mut period, |_, inflow| Outflow::AllButOneKg.kg(inflow));
    period
}

#[cfg(test)]
mod tests {
    use super::super::answers::{answer, rows};
    use super::*;

    #[test]
    fn outflow_above_the_inflow_is_refused_at_its_segment() {
        let mut seeded = Seeded::new(1);
        for segment in 1..=SEGMENTS {
            let refused = format!("R 12 {segment}");
            for outflow in OUTFLOWS {
                let above = matches!(outflow, Outflow::OneKgMore | Outflow::Largest);
                let expected = if above { &refused[..] } else { "A" };
                let period = much_flows(segment, outflow, &mut seeded);
                assert_eq!(answer(&period), expected, "{outflow:?}");
            }
            assert_eq!(answer(&nothing_flows(segment, 0)), "A");
            assert_eq!(answer(&nothing_flows(segment, 1)), refused);
        }
    }

    #[test]
    fn one_kg_is_lost_at_each_segment() {
        let rows = rows(&one_kg_lost_at_each(&mut Seeded::new(1)));
        assert!(rows.segments.iter().all(|row| row.lost == 1));
        let lost: u64 = rows.plants.iter().map(|row| row.lost).sum();
        assert_eq!(lost, 32);
    }
}
