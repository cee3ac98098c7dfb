//! What flows through the segments: inflow, credits, charges; refusals 11 to 13.

use super::records::{Period, Segment};
use crate::numbers::number::LIMIT;
use crate::refusal::{Placed, Reason};
use std::collections::BTreeMap;

/// Amounts of plants in kg by the number of the plant, in rising number.
pub type Amounts = BTreeMap<usize, u64>;

/// What came of the flow through all segments.
#[derive(Debug, PartialEq, Eq)]
pub struct Flow {
    /// The amounts that enter each segment, of every plant whose route passes.
    pub entering: Vec<Amounts>,
    /// What each plant is credited at its store.
    pub stored: Vec<u64>,
    /// All that each plant is charged.
    pub charged: Vec<u64>,
}

/// Works the segments in rising number, with the emissions of each.
pub fn flow_of(period: &Period, emissions: &[u64]) -> Result<Flow, Placed> {
    let mut flow = Flow {
        entering: exports_entering(period),
        stored: vec![0; period.plants.len()],
        charged: vec![0; period.plants.len()],
    };
    for (index, segment) in period.segments.iter().enumerate() {
        let amounts = flow.entering[index].clone();
        check_segment(inflow_of(&amounts), segment.outflow, emissions[index])
            .map_err(|reason| reason.at(index + 1))?;
        for (plant, charge) in charges(&amounts, emissions[index]) {
            flow.charged[plant - 1] += charge;
        }
        flow.pass_on(segment, credits(&amounts, segment.outflow));
    }
    Ok(flow)
}

impl Flow {
    /// Brings the credits of a segment to the next one, or into the store.
    fn pass_on(&mut self, segment: &Segment, credits: Amounts) {
        if segment.is_store() {
            for (plant, credit) in credits {
                self.stored[plant - 1] = credit;
            }
        } else {
            self.entering[segment.next - 1].extend(credits);
        }
    }
}

/// The amounts that enter each segment as exports: every plant at its first one.
pub fn exports_entering(period: &Period) -> Vec<Amounts> {
    let mut entering = vec![Amounts::new(); period.segments.len()];
    for (index, plant) in period.plants.iter().enumerate() {
        entering[plant.first_segment - 1].insert(index + 1, plant.exported);
    }
    entering
}

/// The sum of the amounts.
pub fn inflow_of(amounts: &Amounts) -> u64 {
    amounts.values().sum()
}

/// Tests a segment in the order of the paper.
fn check_segment(inflow: u64, outflow: u64, emission: u64) -> Result<(), Reason> {
    if inflow > LIMIT {
        return Err(Reason::InflowTooLarge);
    }
    if outflow > inflow {
        return Err(Reason::OutflowOverInflow);
    }
    if emission > 0 && inflow == 0 {
        return Err(Reason::EmissionWithoutInflow);
    }
    Ok(())
}

/// What each plant is credited: the outflow shared over the running sums, so
/// that no kg is lost between the plants.
pub fn credits(amounts: &Amounts, outflow: u64) -> Amounts {
    let inflow = inflow_of(amounts);
    let mut before = 0;
    let mut credits = Amounts::new();
    for (&plant, &amount) in amounts {
        let up_to = before + amount;
        let credit = share_rounded_down(up_to, outflow, inflow)
            - share_rounded_down(before, outflow, inflow);
        credits.insert(plant, credit);
        before = up_to;
    }
    credits
}

/// What each plant is charged: its share of the emission, each rounded up on its own.
fn charges(amounts: &Amounts, emission: u64) -> Amounts {
    let inflow = inflow_of(amounts);
    let charge = |(&plant, &amount)| (plant, share_rounded_up(amount, emission, inflow));
    amounts.iter().map(charge).collect()
}

/// part × shared / whole, rounded down; 0 of a whole that is 0.
fn share_rounded_down(part: u64, shared: u64, whole: u64) -> u64 {
    if whole == 0 {
        return 0;
    }
    let product = u128::from(part) * u128::from(shared);
    narrow(product / u128::from(whole))
}

/// part × shared / whole, rounded up; 0 of a whole that is 0.
fn share_rounded_up(part: u64, shared: u64, whole: u64) -> u64 {
    if whole == 0 {
        return 0;
    }
    let product = u128::from(part) * u128::from(shared);
    let one_short = u128::from(whole - 1);
    narrow((product + one_short) / u128::from(whole))
}

/// A share is at most what is shared, since no part is above the whole.
fn narrow(share: u128) -> u64 {
    u64::try_from(share).expect("a share is at most what is shared")
}

#[cfg(test)]
mod tests {
    use super::*;
    use crate::seeded::Seeded;

    /// Amounts of plants 1, 2 and so on.
    fn amounts(amounts: &[u64]) -> Amounts {
        (1..).zip(amounts.iter().copied()).collect()
    }

    /// The flow of a file without lines, or with these emissions of the segments.
    fn flow(numbers: &[u64], emissions: &[u64]) -> Result<Flow, Placed> {
        flow_of(&Period::from_numbers(numbers), emissions)
    }

    #[test]
    fn credits_of_the_whole_period() {
        let credited = credits(&amounts(&[10_000, 5001]), 14_900);
        assert_eq!(credited, amounts(&[9932, 4968]));
        assert_eq!(credits(&credited, 14_899), amounts(&[9931, 4968]));
    }

    #[test]
    fn credits_are_not_each_rounded_down() {
        assert_eq!(credits(&amounts(&[1, 1, 1]), 2), amounts(&[0, 1, 1]));
        assert_eq!(credits(&amounts(&[1, 1, 1]), 3), amounts(&[1, 1, 1]));
        assert_eq!(credits(&amounts(&[5, 0, 5]), 7), amounts(&[3, 0, 4]));
    }

    #[test]
    fn credits_add_up_to_the_outflow() {
        let mut seeded = Seeded::new(1);
        for _ in 0..2000 {
            let plants = 1 + seeded.up_to(15);
            let most = LIMIT / plants as u64;
            let drawn: Vec<u64> = (0..plants).map(|_| seeded.of_any_size(most)).collect();
            let amounts = amounts(&drawn);
            let outflow = seeded.within(0..=inflow_of(&amounts));
            let credits = credits(&amounts, outflow);
            assert_eq!(inflow_of(&credits), outflow);
            assert!(credits
                .iter()
                .all(|(plant, credit)| *credit <= amounts[plant]));
        }
    }

    #[test]
    fn nothing_is_credited_or_charged_where_nothing_flows() {
        assert_eq!(credits(&amounts(&[0, 0]), 0), amounts(&[0, 0]));
        assert_eq!(charges(&amounts(&[0, 0]), 0), amounts(&[0, 0]));
    }

    #[test]
    fn each_charge_is_rounded_up_on_its_own() {
        assert_eq!(charges(&amounts(&[1, 1, 1]), 1), amounts(&[1, 1, 1]));
        assert_eq!(charges(&amounts(&[1, 1, 1]), 4), amounts(&[2, 2, 2]));
        assert_eq!(charges(&amounts(&[3, 1, 0]), 2), amounts(&[2, 1, 0]));
        assert_eq!(charges(&amounts(&[10_000, 5001]), 268), amounts(&[179, 90]));
    }

    #[test]
    fn larger_emission_never_lowers_a_charge() {
        let amounts = amounts(&[3, 7, 1, 0, 11]);
        for emission in 0..100 {
            let lower = charges(&amounts, emission);
            let higher = charges(&amounts, emission + 1);
            assert!(lower.iter().all(|(plant, charge)| *charge <= higher[plant]));
            let more = inflow_of(&lower) - emission;
            assert!(more < amounts.len() as u64);
        }
    }

    #[test]
    fn largest_amounts_and_emissions_are_shared() {
        let numbers = [1, 1, 1, 0, LIMIT, 1, 0, 6, LIMIT, 0];
        let flow = flow(&numbers, &[LIMIT]).expect("all is within the limits");
        assert_eq!(flow.stored, [LIMIT]);
        assert_eq!(flow.charged, [LIMIT]);
    }

    #[test]
    fn amounts_go_the_way_of_the_routes() {
        // Plant 2 starts behind plant 1 and has a lower number than plant 3 at the store.
        let numbers = [
            1, 3, 3, 0, //
            100, 1, 0, 40, 2, 0, 60, 1, 0, //
            2, 80, 3, //
            6, 40, 0, //
            6, 80, 0,
        ];
        let flow = flow(&numbers, &[8, 0, 5]).expect("no outflow is above its inflow");
        assert_eq!(flow.entering[0], Amounts::from([(1, 100), (3, 60)]));
        assert_eq!(flow.entering[1], Amounts::from([(2, 40)]));
        assert_eq!(flow.entering[2], Amounts::from([(1, 50), (3, 30)]));
        assert_eq!(flow.stored, [50, 40, 30]);
        assert_eq!(flow.charged, [5 + 4, 0, 3 + 2]);
    }

    #[test]
    fn inflow_at_the_limit_is_allowed_and_one_more_refused() {
        let mut numbers = [1, 2, 1, 0, 1, 1, 0, LIMIT - 1, 1, 0, 6, LIMIT, 0];
        assert!(flow(&numbers, &[0]).is_ok());
        numbers[4] = 2;
        assert_eq!(flow(&numbers, &[0]), Err(Reason::InflowTooLarge.at(1)));
    }

    #[test]
    fn sum_of_all_plants_is_refused() {
        let mut numbers = vec![1, 16, 1, 0];
        for _ in 0..16 {
            numbers.extend([LIMIT, 1, 0]);
        }
        numbers.extend([6, 0, 0]);
        assert_eq!(flow(&numbers, &[0]), Err(Reason::InflowTooLarge.at(1)));
    }

    #[test]
    fn faults_of_a_segment_come_before_those_of_the_next() {
        // Segment 2 is past the limit in any case, unless segment 1 is refused before.
        let mut numbers = [
            1,
            2,
            2,
            0, //
            3_000_000_000,
            1,
            0,
            LIMIT,
            2,
            0, //
            1,
            3_000_000_001,
            2, //
            6,
            0,
            0,
        ];
        assert_eq!(
            flow(&numbers, &[0, 0]),
            Err(Reason::OutflowOverInflow.at(1))
        );
        numbers[11] -= 1;
        assert_eq!(flow(&numbers, &[0, 0]), Err(Reason::InflowTooLarge.at(2)));

        let dry = [1, 1, 2, 0, 0, 1, 0, 1, 0, 2, 6, 1, 0];
        assert_eq!(
            flow(&dry, &[1, 0]),
            Err(Reason::EmissionWithoutInflow.at(1))
        );
        assert_eq!(flow(&dry, &[0, 1]), Err(Reason::OutflowOverInflow.at(2)));
    }
}
