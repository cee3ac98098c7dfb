//! Giving the segments their outflows, each with its inflow known.

use super::flow::{credits, exports_entering, inflow_of};
use super::records::Period;

/// Gives every segment, in rising number, the outflow that is chosen for its number and its
/// inflow, and says what the inflows are; the exports must be there already.
pub fn choose_outflows(period: &mut Period, mut choose: impl FnMut(usize, u64) -> u64) -> Vec<u64> {
    let mut entering = exports_entering(period);
    for (index, segment) in period.segments.iter_mut().enumerate() {
        let inflow = inflow_of(&entering[index]);
        segment.outflow = choose(index + 1, inflow);
        let credits = credits(&entering[index], segment.outflow.min(inflow));
        if !segment.is_store() {
            entering[segment.next - 1].extend(credits);
        }
    }
    entering.iter().map(inflow_of).collect()
}

#[cfg(test)]
mod tests {
    use super::*;
    use crate::periods::paper::WHOLE_PERIOD;

    #[test]
    fn each_outflow_is_chosen_with_the_inflow_known() {
        let mut period = Period::from_numbers(&WHOLE_PERIOD);
        let mut asked = Vec::new();
        let inflows = choose_outflows(&mut period, |number, inflow| {
            asked.push((number, inflow));
            inflow - number as u64
        });
        assert_eq!(asked, [(1, 15_001), (2, 15_000)]);
        assert_eq!(inflows, [15_001, 15_000]);
        assert_eq!(period.segments[0].outflow, 15_000);
        assert_eq!(period.segments[1].outflow, 14_998);
    }

    #[test]
    fn outflow_above_the_inflow_brings_no_more_than_came_in() {
        let mut period = Period::from_numbers(&WHOLE_PERIOD);
        let inflows = choose_outflows(&mut period, |_, inflow| inflow + 1);
        assert_eq!(inflows, [15_001, 15_001]);
    }
}
