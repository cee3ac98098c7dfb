//! Seeded outflows, chosen with the inflow of each segment known.

use crate::numbers::number::LIMIT;
use crate::periods::outflows::choose_outflows;
use crate::periods::records::Period;
use crate::seeded::Seeded;

/// What leaves the segments.
#[derive(Clone, Copy, Debug)]
pub enum Outflows {
    /// A little less than the inflow.
    BitBelow,
    /// All of the inflow.
    All,
    Nothing,
    /// Anything up to the inflow.
    Any,
    /// Each segment has one of those above.
    Mixed,
    /// As `Mixed`, one segment one kg more than its inflow.
    OneOver,
    /// As `Mixed`, one segment far more than its inflow.
    FarOver,
}

/// At most one part in this many is lost if the outflow is a little less.
const PARTS_TO_A_LOST_ONE: u64 = 50;

/// Gives every segment its outflow in rising number and says what the inflows
/// are; the exports must be there already.
pub fn set_outflows(outflows: Outflows, period: &mut Period, seeded: &mut Seeded) -> Vec<u64> {
    let over_at = 1 + seeded.up_to(period.segments.len() - 1);
    choose_outflows(period, |number, inflow| match outflows {
        Outflows::OneOver if number == over_at => LIMIT.min(inflow + 1),
        Outflows::FarOver if number == over_at => seeded.within(LIMIT.min(inflow + 1)..=LIMIT),
        _ => seeded_outflow(outflows, inflow.min(LIMIT), seeded),
    })
}

/// An outflow that is not above the inflow.
fn seeded_outflow(outflows: Outflows, inflow: u64, seeded: &mut Seeded) -> u64 {
    const EACH: [Outflows; 5] = [
        Outflows::BitBelow,
        Outflows::BitBelow,
        Outflows::All,
        Outflows::Nothing,
        Outflows::Any,
    ];
    match outflows {
        Outflows::BitBelow => inflow - seeded.of_any_size(inflow / PARTS_TO_A_LOST_ONE),
        Outflows::All => inflow,
        Outflows::Nothing => 0,
        Outflows::Any => seeded.within(0..=inflow),
        Outflows::Mixed | Outflows::OneOver | Outflows::FarOver => {
            let one = seeded.pick(&EACH);
            seeded_outflow(one, inflow, seeded)
        }
    }
}
