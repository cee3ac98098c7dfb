//! Routes that end at several stores, that meet, and that start at later segments.

use super::full_size::{
    full_size, set_kg, share_export, through_all, LINES, NO_NEXT, PLANTS, SEGMENTS,
};
use crate::numbers::number::LIMIT;
use crate::periods::outflows::choose_outflows;
use crate::periods::records::{Owner, Period, Plant};
use crate::seeded::Seeded;

/// The seed of exports, fractions, outflows and emissions.
const SEED_OF_AMOUNTS: u64 = 0x5EED_0009;
/// How many segments there are to a store.
const SEGMENTS_TO_A_STORE: [usize; 7] = [1, 2, 3, 4, 8, 16, SEGMENTS];
/// How many periods of each shape there are.
const TIMES_EACH: usize = 4;

/// Where the plants start.
#[derive(Clone, Copy, Debug)]
enum Starts {
    /// All at the first segment.
    Together,
    /// A plant of a higher number at a later segment.
    Rising,
    /// A plant of a higher number at an earlier segment, so that plants of lower numbers join.
    Falling,
    /// At the first and at the last segment by turns.
    BothEnds,
}

const STARTS: [Starts; 4] = [
    Starts::Together,
    Starts::Rising,
    Starts::Falling,
    Starts::BothEnds,
];

impl Starts {
    /// The first segment of a plant.
    fn first_of(self, plant: usize) -> usize {
        match self {
            Starts::Together => 1,
            Starts::Rising => plant * (SEGMENTS / PLANTS),
            Starts::Falling => SEGMENTS - plant,
            Starts::BothEnds if plant % 2 == 0 => 1,
            Starts::BothEnds => SEGMENTS,
        }
    }
}

/// How the segments between two stores lead on.
#[derive(Clone, Copy, Debug)]
enum Lead {
    /// Each to the one after it.
    InRow,
    /// All to the store: routes meet only there.
    ToStore,
    /// Each to the one after the next, so that two routes run side by side up to the store.
    SideBySide,
}

const LEADS: [Lead; 3] = [Lead::InRow, Lead::ToStore, Lead::SideBySide];

impl Lead {
    /// The next segment of one that is no store, with the number of the store it leads to.
    fn next_of(self, own: usize, store: usize) -> usize {
        match self {
            Lead::InRow => own + 1,
            Lead::ToStore => store,
            Lead::SideBySide => store.min(own + 2),
        }
    }
}

/// Every shape of routes, and all plants through all segments, with seeded amounts.
pub fn of_every_shape() -> Vec<Period> {
    let mut seeded = Seeded::new(SEED_OF_AMOUNTS);
    let mut periods = Vec::new();
    for _ in 0..TIMES_EACH {
        periods.push(with_amounts(through_all(), &mut seeded));
        for segments_to_a_store in SEGMENTS_TO_A_STORE {
            for lead in LEADS {
                for starts in STARTS {
                    let shape = with_stores(segments_to_a_store, lead, starts);
                    periods.push(with_amounts(shape, &mut seeded));
                }
            }
        }
    }
    periods
}

/// One segment in every `segments_to_a_store` is a store; nothing is exported yet.
fn with_stores(segments_to_a_store: usize, lead: Lead, starts: Starts) -> Period {
    full_size(
        |plant| starts.first_of(plant),
        |own| {
            let stores_before = (own - 1) / segments_to_a_store;
            let store = ((stores_before + 1) * segments_to_a_store).min(SEGMENTS);
            if own == store {
                NO_NEXT
            } else {
                lead.next_of(own, store)
            }
        },
    )
}

/// The period with seeded exports, fractions, outflows, and emissions wherever something flows.
fn with_amounts(mut period: Period, seeded: &mut Seeded) -> Period {
    share_export(&mut period, 1..=PLANTS, LIMIT, seeded);
    for plant in &mut period.plants {
        plant.fraction = seeded.within(0..=Plant::WHOLE_FRACTION);
    }
    let inflows = choose_outflows(&mut period, |_, inflow| inflow - seeded.of_any_size(inflow));
    for line in 1..=LINES {
        let owner = period.lines[line - 1].owner;
        let dry = matches!(owner, Owner::Segment(number) if inflows[number - 1] == 0);
        if !dry {
            let kg = seeded.of_any_size(LIMIT / LINES as u64);
            set_kg(&mut period, line, owner, kg);
        }
    }
    period
}

#[cfg(test)]
mod tests {
    use super::super::answers::{answer, rows};
    use super::*;

    #[test]
    fn every_shape_is_accepted() {
        for period in of_every_shape() {
            assert_eq!(answer(&period), "A");
        }
    }

    #[test]
    fn stores_stand_where_they_should() {
        for (segments_to_a_store, stores) in [(1, 32), (2, 16), (3, 11), (16, 2), (32, 1)] {
            let period = with_stores(segments_to_a_store, Lead::ToStore, Starts::Rising);
            let found = period.segments.iter().filter(|segment| segment.is_store());
            assert_eq!(found.count(), stores);
        }
    }

    #[test]
    fn plants_of_lower_number_join_those_of_higher() {
        let period = with_stores(SEGMENTS, Lead::InRow, Starts::Falling);
        let rows = rows(&with_amounts(period, &mut Seeded::new(1)));
        assert_eq!(rows.segments[15].plants, 0x8000);
        assert_eq!(rows.segments[16].plants, 0xC000);
        assert_eq!(rows.segments[31].plants, 0xFFFF);
    }

    #[test]
    fn routes_run_side_by_side_up_to_the_store() {
        let period = with_stores(SEGMENTS, Lead::SideBySide, Starts::Rising);
        let rows = rows(&period);
        assert_eq!(rows.segments[30].plants, 0);
        assert_eq!(rows.segments[31].plants, 0xFFFF);
    }
}
