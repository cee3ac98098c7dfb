//! Several faults in one period: the order of refusals 10, 16, and 11 to 13.

use super::full_size::{
    export_each, full_size, let_all_pass, set_captured, set_grams, set_kg, set_line, LINES,
    NO_NEXT, PLANTS, SEGMENTS,
};
use super::inflows::TURNS_OVER;
use crate::numbers::number::LIMIT;
use crate::periods::classes::GRAMS_OF_A_KG;
use crate::periods::records::{Owner, Period};

/// What can be wrong at a segment.
#[derive(Clone, Copy, Debug, PartialEq, Eq)]
enum Fault {
    InflowTooLarge,
    OutflowOverInflow,
    EmissionWithoutInflow,
}

const FAULTS: [Fault; 3] = [
    Fault::InflowTooLarge,
    Fault::OutflowOverInflow,
    Fault::EmissionWithoutInflow,
];

/// Segments that are at fault two by two.
const SEGMENTS_AT_FAULT: [usize; 5] = [1, 2, 16, SEGMENTS - 1, SEGMENTS];
/// How many plants bring one inflow past its limit.
const PLANTS_AT_FAULT: usize = 2;
/// What each of them exports: together a little more than the limit.
const EXPORT_AT_FAULT: u64 = LIMIT / PLANTS_AT_FAULT as u64 + 1;

/// Every two faults at every two segments, two faults at one segment, inflows that 32 bits
/// cannot hold; and a gram total past its limit, more captured than fuel gives, or both besides.
pub fn of_several_faults() -> Vec<Period> {
    let mut periods = Vec::new();
    for (one, other) in pairs_of_segments() {
        for fault in FAULTS {
            for fault_of_other in FAULTS {
                let faults = [(one, fault), (other, fault_of_other)];
                periods.push(with_faults(&faults));
                periods.push(with_gram_total(with_faults(&faults)));
                periods.push(with_captured(with_faults(&faults)));
            }
        }
    }
    for fault in FAULTS {
        let period = with_captured(with_faults(&[(1, fault)]));
        periods.push(with_gram_total(period));
    }
    for segment in 1..=SEGMENTS {
        periods.push(outflow_and_emission(segment));
        periods.push(turned_over(segment, 0));
        periods.push(turned_over(segment, 1));
    }
    periods
}

/// Every two of the segments, the lower number first.
fn pairs_of_segments() -> Vec<(usize, usize)> {
    let mut pairs = Vec::new();
    for one in SEGMENTS_AT_FAULT {
        let others = SEGMENTS_AT_FAULT.into_iter().filter(|&other| other > one);
        pairs.extend(others.map(|other| (one, other)));
    }
    pairs
}

/// Every segment is a store, so that each has only its own faults. Plants that bring no fault
/// export nothing and stay at a segment without fault.
fn with_faults(faults: &[(usize, Fault)]) -> Period {
    let elsewhere = segment_without(faults);
    let mut period = full_size(|_| elsewhere, |_| NO_NEXT);
    bring_inflows_past_limit(&mut period, faults);
    let_all_pass(&mut period);
    for (line, &(segment, fault)) in (1..).zip(faults) {
        match fault {
            Fault::InflowTooLarge => {}
            Fault::OutflowOverInflow => period.segments[segment - 1].outflow = 1,
            Fault::EmissionWithoutInflow => {
                set_grams(&mut period, line, Owner::Segment(segment), 1);
            }
        }
    }
    period
}

/// The first segment that has none of the faults.
fn segment_without(faults: &[(usize, Fault)]) -> usize {
    let at_fault = |number: &usize| faults.iter().any(|(segment, _)| segment == number);
    let without = (1..=SEGMENTS).find(|number| !at_fault(number));
    without.expect("some segment has no fault")
}

/// Brings plants of their own to every segment whose inflow is to be too large.
fn bring_inflows_past_limit(period: &mut Period, faults: &[(usize, Fault)]) {
    let too_large = faults
        .iter()
        .filter(|(_, fault)| *fault == Fault::InflowTooLarge);
    let groups = period.plants.chunks_mut(PLANTS_AT_FAULT);
    for (group, &(segment, _)) in groups.zip(too_large) {
        for plant in group {
            plant.first_segment = segment;
            plant.exported = EXPORT_AT_FAULT;
        }
    }
}

/// The period with a last line that passes the limit of a gram total.
fn with_gram_total(mut period: Period) -> Period {
    set_line(
        &mut period,
        LINES,
        Owner::Plant(1),
        LIMIT,
        GRAMS_OF_A_KG + 1,
    );
    period
}

/// The plant of which more is captured than its fuel gives, and the line that says so.
const PLANT_ABOVE_FUEL: usize = 2;
const LINE_ABOVE_FUEL: usize = 100;

/// The period with a plant that captured a kg without fuel.
fn with_captured(mut period: Period) -> Period {
    set_captured(&mut period, LINE_ABOVE_FUEL, PLANT_ABOVE_FUEL, 1);
    period
}

/// Nothing flows in at the segment, yet it has an outflow and an emission.
fn outflow_and_emission(segment: usize) -> Period {
    with_faults(&[
        (segment, Fault::EmissionWithoutInflow),
        (segment, Fault::OutflowOverInflow),
    ])
}

/// An inflow that 32 bits cannot hold: what they keep of it is so small that outflow and emission
/// would be faults too.
fn turned_over(segment: usize, kept: u64) -> Period {
    let mut period = full_size(|_| segment, |_| NO_NEXT);
    export_each(&mut period, |_| TURNS_OVER / PLANTS as u64);
    period.plants[0].exported += kept;
    set_kg(&mut period, 1, Owner::Segment(segment), LIMIT);
    let_all_pass(&mut period);
    period
}

#[cfg(test)]
mod tests {
    use super::super::answers::answer;
    use super::*;

    fn refused(segment: usize, fault: Fault) -> String {
        let number = match fault {
            Fault::InflowTooLarge => 11,
            Fault::OutflowOverInflow => 12,
            Fault::EmissionWithoutInflow => 13,
        };
        format!("R {number} {segment}")
    }

    #[test]
    fn segment_of_lower_number_decides() {
        for (one, other) in pairs_of_segments() {
            for fault in FAULTS {
                for fault_of_other in FAULTS {
                    let faults = [(one, fault), (other, fault_of_other)];
                    let expected = refused(one, fault);
                    assert_eq!(answer(&with_faults(&faults)), expected);
                    let reversed = [(other, fault_of_other), (one, fault)];
                    assert_eq!(answer(&with_faults(&reversed)), expected);
                }
            }
        }
    }

    #[test]
    fn each_fault_stands_by_itself() {
        for segment in 1..=SEGMENTS {
            for fault in FAULTS {
                let period = with_faults(&[(segment, fault)]);
                assert_eq!(answer(&period), refused(segment, fault));
            }
        }
    }

    #[test]
    fn gram_total_comes_before_the_segments() {
        for fault in FAULTS {
            let period = with_gram_total(with_faults(&[(1, fault), (2, fault)]));
            assert_eq!(answer(&period), "R 10 512");
        }
    }

    #[test]
    fn captured_grams_come_between_gram_totals_and_segments() {
        for fault in FAULTS {
            let period = with_captured(with_faults(&[(1, fault), (2, fault)]));
            assert_eq!(answer(&period), "R 16 2");
            assert_eq!(answer(&with_gram_total(period)), "R 10 512");
        }
    }

    #[test]
    fn outflow_comes_before_emission() {
        for segment in 1..=SEGMENTS {
            let period = outflow_and_emission(segment);
            assert_eq!(answer(&period), format!("R 12 {segment}"));
        }
    }

    #[test]
    fn inflow_comes_before_both() {
        for segment in 1..=SEGMENTS {
            for kept in [0, 1] {
                let period = turned_over(segment, kept);
                assert_eq!(answer(&period), format!("R 11 {segment}"));
            }
        }
    }
}
