//! The classes of lines: one table says who may have each of them, and with which factors.

use super::records::{Line, Owner};
use std::ops::RangeInclusive;

/// Grams of a kg.
pub const GRAMS_OF_A_KG: u64 = 1000;

/// The codes of the classes.
const EXTRA_BIOMASS: u64 = 1;
const BIOMASS_STORAGE: u64 = 2;
pub const FUEL: u64 = 3;
pub const ELECTRICITY: u64 = 4;
const HEAT: u64 = 5;
pub const INPUTS: u64 = 6;
const CONSTRUCTION: u64 = 7;
const WASTE_DISPOSAL: u64 = 8;
/// Fossil CO2 captured with the rest, in kg: its grams are taken from those of fuel.
pub const CAPTURED_FOSSIL: u64 = 9;

/// A row of the table.
struct Class {
    code: u64,
    /// The kinds of owners whose lines may have it.
    owners: RangeInclusive<u64>,
    /// The factors that its lines may have.
    factors: RangeInclusive<u64>,
}

/// The table, in rising code.
static CLASSES: [Class; 9] = [
    of_plants(EXTRA_BIOMASS),
    of_plants(BIOMASS_STORAGE),
    of_both(FUEL),
    of_both(ELECTRICITY),
    of_both(HEAT),
    of_both(INPUTS),
    of_both(CONSTRUCTION),
    of_plants(WASTE_DISPOSAL),
    Class {
        factors: GRAMS_OF_A_KG..=GRAMS_OF_A_KG,
        ..of_plants(CAPTURED_FOSSIL)
    },
];

/// A class of plants only, with any factor.
const fn of_plants(code: u64) -> Class {
    Class {
        code,
        owners: Owner::PLANT..=Owner::PLANT,
        factors: Line::FACTORS,
    }
}

/// A class of plants and segments, with any factor.
const fn of_both(code: u64) -> Class {
    Class {
        code,
        owners: Owner::KINDS,
        factors: Line::FACTORS,
    }
}

/// The classes that the lines of an owner of this kind may have; they come one after the other.
pub fn classes_of(kind: u64) -> RangeInclusive<u64> {
    range_of(kind, |_| true)
}

/// Those of these classes whose grams the owner emits: all but what is taken from them.
pub fn emitting_classes_of(kind: u64) -> RangeInclusive<u64> {
    range_of(kind, |code| code != CAPTURED_FOSSIL)
}

/// From the first to the last class of an owner of this kind that is asked for.
fn range_of(kind: u64, asked: fn(u64) -> bool) -> RangeInclusive<u64> {
    let of_kind = CLASSES.iter().filter(|class| class.owners.contains(&kind));
    let mut codes = of_kind.map(|class| class.code).filter(|&code| asked(code));
    let first = codes.next().expect("every kind of owner has classes");
    first..=codes.next_back().unwrap_or(first)
}

/// The factors that a line of this class, which must be one of the table, may have.
pub fn factors_of(code: u64) -> RangeInclusive<u64> {
    let found = CLASSES.iter().find(|class| class.code == code);
    found
        .expect("the class is one of the table")
        .factors
        .clone()
}

#[cfg(test)]
mod tests {
    use super::*;

    #[test]
    fn classes_are_those_of_the_paper() {
        assert_eq!(classes_of(Owner::PLANT), 1..=9);
        assert_eq!(classes_of(Owner::SEGMENT), 3..=7);
        assert_eq!(emitting_classes_of(Owner::PLANT), 1..=8);
        assert_eq!(emitting_classes_of(Owner::SEGMENT), 3..=7);
    }

    #[test]
    fn no_class_is_missing_between_the_first_and_the_last() {
        for kind in Owner::KINDS {
            let of_kind = |code| {
                CLASSES
                    .iter()
                    .any(|c| c.code == code && c.owners.contains(&kind))
            };
            assert!(classes_of(kind).all(of_kind));
        }
    }

    #[test]
    fn captured_fossil_alone_has_one_factor() {
        for code in 1..=8 {
            assert_eq!(factors_of(code), 0..=1_000_000_000);
        }
        assert_eq!(factors_of(9), 1000..=1000);
    }
}
