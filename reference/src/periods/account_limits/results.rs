//! Results of plants around the amounts at which gross, net, units and deficit change.

use super::full_size::{each_at_its_store, let_all_pass, set_kg, PLANTS};
use crate::numbers::number::LIMIT;
use crate::periods::records::{Owner, Period, Plant};

/// Stored amounts around those that a small fraction leaves nothing of.
const STORED: [u64; 10] = [
    0,
    1,
    999,
    1000,
    1001,
    Plant::WHOLE_FRACTION - 1,
    Plant::WHOLE_FRACTION,
    Plant::WHOLE_FRACTION + 1,
    LIMIT - 1,
    LIMIT,
];
/// Fractions at both ends and in the middle.
const FRACTIONS: [u64; 6] = [
    0,
    1,
    Plant::WHOLE_FRACTION / 2,
    Plant::WHOLE_FRACTION / 2 + 1,
    Plant::WHOLE_FRACTION - 1,
    Plant::WHOLE_FRACTION,
];
/// Gross amounts from which emissions leave a net amount or a deficit.
const GROSS: [u64; 3] = [1, 5000, LIMIT - 5000];
/// Differences between gross and associated, on both sides of none and of a unit.
const DIFFERENCES: [u64; 8] = [0, 1, 999, 1000, 1001, 1999, 2000, 2001];

/// A plant that shares with none what it stores and what is emitted for it.
#[derive(Clone, Copy)]
struct Alone {
    stored: u64,
    fraction: u64,
    associated: u64,
}

/// Every fraction of every stored amount; and gross amounts with emissions beside them, of the
/// plant itself and of its store.
pub fn of_plants_alone() -> Vec<Period> {
    let with_emissions = plants_with_emissions();
    let mut periods = periods_of(&plants_with_fractions(), Owner::Plant);
    periods.extend(periods_of(&with_emissions, Owner::Plant));
    periods.extend(periods_of(&with_emissions, Owner::Segment));
    periods
}

/// Every stored amount with every fraction, without emissions.
fn plants_with_fractions() -> Vec<Alone> {
    let mut plants = Vec::new();
    for stored in STORED {
        plants.extend(FRACTIONS.map(|fraction| Alone {
            stored,
            fraction,
            associated: 0,
        }));
    }
    plants
}

/// Every gross amount with emissions that are as much below and above as the differences say.
fn plants_with_emissions() -> Vec<Alone> {
    let mut plants = Vec::new();
    for gross in GROSS {
        let below = DIFFERENCES
            .iter()
            .filter_map(|more| gross.checked_sub(*more));
        let above = DIFFERENCES.iter().map(|more| gross + more);
        plants.extend(below.chain(above).map(|associated| Alone {
            stored: gross,
            fraction: Plant::WHOLE_FRACTION,
            associated,
        }));
    }
    plants
}

/// Periods that hold all these plants, each at a store of its own; the emissions are those of the
/// plants or of their stores.
fn periods_of(plants: &[Alone], owner: fn(usize) -> Owner) -> Vec<Period> {
    let of_one_period = plants.chunks(PLANTS);
    of_one_period
        .map(|plants| period_of(plants, owner))
        .collect()
}

/// A period with these plants; others export nothing.
fn period_of(plants: &[Alone], owner: fn(usize) -> Owner) -> Period {
    let mut period = each_at_its_store();
    for (alone, number) in plants.iter().zip(1..) {
        let plant = &mut period.plants[number - 1];
        plant.exported = alone.stored;
        plant.fraction = alone.fraction;
        set_kg(&mut period, number, owner(number), alone.associated);
    }
    let_all_pass(&mut period);
    period
}

#[cfg(test)]
mod tests {
    use super::super::answers::{answer, rows};
    use super::*;
    use crate::periods::rows::PlantRow;

    /// The rows of the plants, all emissions those of the owners.
    fn rows_of(plants: &[Alone], owner: fn(usize) -> Owner) -> Vec<PlantRow> {
        let periods = periods_of(plants, owner);
        let rows = periods.iter().flat_map(|period| rows(period).plants);
        rows.take(plants.len()).collect()
    }

    #[test]
    fn all_are_accepted() {
        for period in of_plants_alone() {
            assert_eq!(answer(&period), "A");
        }
    }

    #[test]
    fn rows_are_those_that_were_wanted() {
        for owner in [Owner::Plant, Owner::Segment] {
            for plants in [plants_with_fractions(), plants_with_emissions()] {
                let rows = rows_of(&plants, owner);
                assert_eq!(rows.len(), plants.len());
                for (row, plant) in rows.iter().zip(&plants) {
                    assert_eq!(row.stored, plant.stored);
                    assert_eq!(row.associated, plant.associated);
                }
            }
        }
    }

    #[test]
    fn both_sides_of_every_boundary_are_met() {
        let rows = rows_of(&plants_with_emissions(), Owner::Plant);
        for net in DIFFERENCES {
            let found = |row: &PlantRow| row.net == net && row.units == net / 1000;
            assert!(rows.iter().any(found), "net {net}");
        }
        for deficit in DIFFERENCES {
            let found = |row: &PlantRow| row.deficit == deficit && row.units == 0;
            assert!(rows.iter().any(found), "deficit {deficit}");
        }
        let rows = rows_of(&plants_with_fractions(), Owner::Plant);
        let small = |row: &PlantRow| row.stored == 999_999 && row.gross == 0;
        assert!(rows.iter().any(small), "a millionth of too little");
        let large = |row: &PlantRow| row.stored == LIMIT && row.gross == LIMIT - 4000;
        assert!(rows.iter().any(large), "nearly all of the most");
    }
}
