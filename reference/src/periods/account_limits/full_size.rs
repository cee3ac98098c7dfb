//! Full-size periods that the others here are made from, and what is set in them.

use crate::numbers::number::LIMIT;
use crate::periods::classes::{classes_of, factors_of, CAPTURED_FOSSIL, FUEL, GRAMS_OF_A_KG};
use crate::periods::outflows::choose_outflows;
use crate::periods::records::{Line, Owner, Period, Plant, Segment};
use crate::seeded::Seeded;

/// As many plants, segments and lines as there can be.
pub const PLANTS: usize = *Plant::COUNT.end() as usize;
pub const SEGMENTS: usize = *Segment::COUNT.end() as usize;
pub const LINES: usize = *Line::COUNT.end() as usize;
/// The first and the last owner of each kind.
pub const OWNERS_AT_ENDS: [Owner; 4] = [
    Owner::Plant(1),
    Owner::Plant(PLANTS),
    Owner::Segment(1),
    Owner::Segment(SEGMENTS),
];
/// The next segment of a store.
pub const NO_NEXT: usize = 0;
/// How many kinds of segments lead on.
const LEADING_KINDS: u64 = Segment::STORE - 1;

/// A period in which each plant starts and each segment leads on as is given for its number.
/// Nothing is exported, and no line has grams.
pub fn full_size(
    first_of_plant: impl Fn(usize) -> usize,
    next_of_segment: impl Fn(usize) -> usize,
) -> Period {
    let plants = (1..=PLANTS).map(|own| Plant {
        exported: 0,
        first_segment: first_of_plant(own),
        fraction: Plant::WHOLE_FRACTION,
    });
    let segments = (1..=SEGMENTS).map(|own| segment_to(next_of_segment(own)));
    Period {
        plants: plants.collect(),
        segments: segments.collect(),
        lines: (0..LINES).map(line_without_grams).collect(),
    }
}

/// A segment that leads to the next one, by another kind to each, or a store if there is none.
fn segment_to(next: usize) -> Segment {
    let kind = match next {
        NO_NEXT => Segment::STORE,
        _ => *Segment::KINDS.start() + next as u64 % LEADING_KINDS,
    };
    Segment {
        kind,
        outflow: 0,
        next,
    }
}

/// A line of 0 grams, though one of its numbers is the largest. Lines go round the owners, and
/// with every round an owner's class changes and which of the numbers is 0, unless the class has
/// but one factor.
fn line_without_grams(index: usize) -> Line {
    const OWNERS: usize = PLANTS + SEGMENTS;
    let round = index / OWNERS;
    let owner = match index % OWNERS {
        plant if plant < PLANTS => Owner::Plant(plant + 1),
        other => Owner::Segment(other - PLANTS + 1),
    };
    let (kind, number) = owner.numbers();
    let classes: Vec<u64> = classes_of(kind).collect();
    let class = classes[(number + round) % classes.len()];
    let factors = factors_of(class);
    let (quantity, factor) = if round % 2 == 0 && factors.contains(&0) {
        (LIMIT, 0)
    } else {
        (0, *factors.end())
    };
    Line {
        owner,
        class,
        quantity,
        factor,
    }
}

/// All plants on one route through all segments.
pub fn through_all() -> Period {
    full_size(|_| 1, next_in_row)
}

/// As `through_all`, with the same export of every plant and the inflow everywhere the limit.
pub fn through_all_at_limit() -> Period {
    let mut period = through_all();
    export_each(&mut period, |_| LIMIT / PLANTS as u64);
    let_all_pass(&mut period);
    period
}

/// The segment after this one, if all are in a row.
pub fn next_in_row(own: usize) -> usize {
    if own < SEGMENTS {
        own + 1
    } else {
        NO_NEXT
    }
}

/// Every segment a store, and each plant at the one of its own number.
pub fn each_at_its_store() -> Period {
    full_size(|own| own, |_| NO_NEXT)
}

/// Gives every plant the export that is given for its number.
pub fn export_each(period: &mut Period, kg_of_plant: impl Fn(usize) -> u64) {
    for (plant, number) in period.plants.iter_mut().zip(1..) {
        plant.exported = kg_of_plant(number);
    }
}

/// Gives the plants of these numbers exports that add up to the total, in seeded parts.
pub fn share_export(
    period: &mut Period,
    plants: impl Iterator<Item = usize>,
    total: u64,
    seeded: &mut Seeded,
) {
    let plants: Vec<usize> = plants.collect();
    let parts = seeded.parts(total, plants.len());
    for (plant, part) in plants.into_iter().zip(parts) {
        period.plants[plant - 1].exported = part;
    }
}

/// Lets out of every segment all that flows in, as far as an outflow can say it.
pub fn let_all_pass(period: &mut Period) {
    choose_outflows(period, |_, inflow| inflow.min(LIMIT));
}

/// Makes the line of this number one of the owner's fuel, with this quantity and this factor.
pub fn set_line(period: &mut Period, number: usize, owner: Owner, quantity: u64, factor: u64) {
    period.lines[number - 1] = Line {
        owner,
        class: FUEL,
        quantity,
        factor,
    };
}

/// Makes the line of this number one of the owner's fuel, with `kg` kg.
pub fn set_kg(period: &mut Period, number: usize, owner: Owner, kg: u64) {
    set_line(period, number, owner, kg, GRAMS_OF_A_KG);
}

/// Makes the line of this number one of the owner's fuel, with `grams` grams.
pub fn set_grams(period: &mut Period, number: usize, owner: Owner, grams: u64) {
    set_line(period, number, owner, grams, 1);
}

/// Makes the line of this number one of what the plant captured of its fuel's CO2, `kg` kg.
pub fn set_captured(period: &mut Period, number: usize, plant: usize, kg: u64) {
    period.lines[number - 1] = Line {
        owner: Owner::Plant(plant),
        class: CAPTURED_FOSSIL,
        quantity: kg,
        factor: GRAMS_OF_A_KG,
    };
}

#[cfg(test)]
mod tests {
    use super::super::answers::rows;
    use super::*;

    #[test]
    fn periods_to_start_from_are_accepted_and_full_size() {
        for period in [through_all(), each_at_its_store()] {
            assert_eq!(period.numbers()[1..4], [16, 32, 512]);
            let rows = rows(&period);
            assert!(rows.plants.iter().all(|row| row.numbers() == [0; 8]));
            assert!(rows.segments.iter().all(|row| row.emission == 0));
        }
    }

    #[test]
    fn inflow_is_the_limit_at_every_segment() {
        let rows = rows(&through_all_at_limit());
        assert!(rows.segments.iter().all(|row| row.inflow == LIMIT));
    }

    #[test]
    fn every_kind_of_segment_stands_on_the_route() {
        let period = through_all();
        for kind in Segment::KINDS {
            assert!(period.segments.iter().any(|segment| segment.kind == kind));
        }
    }

    #[test]
    fn lines_without_grams_have_every_owner_and_class() {
        let period = through_all();
        for kind in Owner::KINDS {
            for class in classes_of(kind) {
                let found = |line: &Line| line.owner.numbers().0 == kind && line.class == class;
                assert!(period.lines.iter().any(found));
            }
        }
    }

    #[test]
    fn shared_export_adds_up() {
        let mut period = through_all();
        share_export(&mut period, 2..=5, 1000, &mut Seeded::new(1));
        let exports: Vec<u64> = period.plants.iter().map(|plant| plant.exported).collect();
        assert_eq!(exports.iter().sum::<u64>(), 1000);
        assert_eq!(exports[0], 0);
        assert_eq!(exports[5..], [0; 11]);
    }
}
