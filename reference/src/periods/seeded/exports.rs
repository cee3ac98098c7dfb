//! Seeded exports of the plants.

use crate::numbers::number::LIMIT;
use crate::periods::records::Period;
use crate::seeded::Seeded;
use std::collections::BTreeMap;

/// What the plants export.
#[derive(Clone, Copy, Debug)]
pub enum Exports {
    /// Amounts of any size that stay below the limit of the inflow together.
    Any,
    /// As `Any`, about half of the plants without export.
    SomeNothing,
    Nothing,
    /// The plants of every store exactly the limit of the inflow together.
    ToLimit,
    /// As `ToLimit`, the plants of one store one kg more.
    OnePast,
    /// Each plant nearly the limit of the inflow.
    FarPast,
}

/// How far below the limit a plant of `FarPast` stays at most.
const BELOW_LIMIT: u64 = 1000;

impl Exports {
    /// The fewest plants such exports need.
    pub fn least_plants(self) -> u64 {
        match self {
            Exports::OnePast | Exports::FarPast => 2,
            Exports::Any | Exports::SomeNothing | Exports::Nothing | Exports::ToLimit => 1,
        }
    }
}

/// Gives every plant its export; the routes must be there already.
pub fn set_exports(exports: Exports, period: &mut Period, seeded: &mut Seeded) {
    let most = LIMIT / period.plants.len() as u64 - 1;
    for plant in &mut period.plants {
        plant.exported = match exports {
            Exports::Any => seeded.of_any_size(most),
            Exports::SomeNothing if seeded.one_in(2) => 0,
            Exports::SomeNothing => seeded.of_any_size(most),
            Exports::Nothing | Exports::ToLimit | Exports::OnePast => 0,
            Exports::FarPast => LIMIT - seeded.of_any_size(BELOW_LIMIT),
        };
    }
    match exports {
        Exports::ToLimit => fill_stores(period, seeded),
        Exports::OnePast => {
            fill_stores(period, seeded);
            add_one_kg(period);
        }
        Exports::Any | Exports::SomeNothing | Exports::Nothing | Exports::FarPast => {}
    }
}

/// Shares the limit of the inflow among the plants of every store.
fn fill_stores(period: &mut Period, seeded: &mut Seeded) {
    for plants in plants_by_store(period).values() {
        let parts = seeded.parts(LIMIT, plants.len());
        for (&plant, part) in plants.iter().zip(parts) {
            period.plants[plant].exported = part;
        }
    }
}

/// Adds one kg to a plant that shares its store: there one at least is below the limit.
fn add_one_kg(period: &mut Period) {
    let by_store = plants_by_store(period);
    let shared = by_store.values().filter(|plants| plants.len() > 1);
    let with_room = shared
        .flatten()
        .find(|&&plant| period.plants[plant].exported < LIMIT);
    if let Some(&plant) = with_room {
        period.plants[plant].exported += 1;
    }
}

/// The indexes of the plants whose routes end at each store.
fn plants_by_store(period: &Period) -> BTreeMap<usize, Vec<usize>> {
    let mut by_store: BTreeMap<usize, Vec<usize>> = BTreeMap::new();
    for (index, plant) in period.plants.iter().enumerate() {
        let store = store_after(period, plant.first_segment);
        by_store.entry(store).or_default().push(index);
    }
    by_store
}

/// The number of the store that the route from this segment ends at.
fn store_after(period: &Period, mut segment: usize) -> usize {
    while !period.segments[segment - 1].is_store() {
        segment = period.segments[segment - 1].next;
    }
    segment
}
