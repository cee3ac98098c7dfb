//! Emissions of the owners in kg: refusals 10 and 16.

use super::classes::{CAPTURED_FOSSIL, FUEL, GRAMS_OF_A_KG};
use super::records::{Line, Owner, Period};
use crate::refusal::{Placed, Reason};

/// The most grams an owner's lines may add up to, those of captured fossil CO2 left out.
pub const LARGEST_GRAM_TOTAL: u64 = 4_000_000_000_000;

/// What the lines of an owner add up to, in grams.
#[derive(Clone, Debug, Default, PartialEq, Eq)]
pub struct Grams {
    /// Those of all classes but captured fossil CO2.
    pub emitted: u128,
    /// Those of fuel among them.
    pub fuel: u128,
    /// Those of captured fossil CO2.
    pub captured: u128,
}

impl Grams {
    /// Adds the grams of a line.
    pub fn add(&mut self, line: &Line) {
        let grams = u128::from(line.quantity) * u128::from(line.factor);
        match line.class {
            CAPTURED_FOSSIL => self.captured += grams,
            FUEL => {
                self.fuel += grams;
                self.emitted += grams;
            }
            _ => self.emitted += grams,
        }
    }

    /// What is emitted and not captured, rounded up to a kg once; no more may be captured than
    /// comes from fuel.
    fn whole_kg(&self) -> u64 {
        let one_short = u128::from(GRAMS_OF_A_KG - 1);
        let kg = (self.emitted - self.captured + one_short) / u128::from(GRAMS_OF_A_KG);
        u64::try_from(kg).expect("a total within the limit fits")
    }
}

/// The grams of each owner, in the order of the records.
pub struct GramTotals {
    plants: Vec<Grams>,
    segments: Vec<Grams>,
}

/// Adds the lines of each owner in file order.
pub fn gram_totals_of(period: &Period) -> Result<GramTotals, Placed> {
    let mut plants = vec![Grams::default(); period.plants.len()];
    let mut segments = vec![Grams::default(); period.segments.len()];
    for (index, line) in period.lines.iter().enumerate() {
        let total = match line.owner {
            Owner::Plant(number) => &mut plants[number - 1],
            Owner::Segment(number) => &mut segments[number - 1],
        };
        total.add(line);
        if total.emitted > u128::from(LARGEST_GRAM_TOTAL) {
            return Err(Reason::GramTotal.at(index + 1));
        }
    }
    Ok(GramTotals { plants, segments })
}

/// What each owner emits in kg, in the order of the records.
#[derive(Debug, PartialEq, Eq)]
pub struct Emissions {
    pub plants: Vec<u64>,
    pub segments: Vec<u64>,
}

/// Takes from the grams of each plant what it captured of its fuel's CO2.
pub fn emissions_of(totals: &GramTotals) -> Result<Emissions, Placed> {
    let above_fuel = |plant: &Grams| plant.captured > plant.fuel;
    if let Some(index) = totals.plants.iter().position(above_fuel) {
        return Err(Reason::CapturedAboveFuel.at(index + 1));
    }
    Ok(Emissions {
        plants: totals.plants.iter().map(Grams::whole_kg).collect(),
        segments: totals.segments.iter().map(Grams::whole_kg).collect(),
    })
}

#[cfg(test)]
mod tests {
    use super::*;
    use crate::periods::classes::INPUTS;
    use crate::periods::paper::WHOLE_PERIOD;

    /// The emissions of two plants and two segments with lines of owner, class, quantity and
    /// factor.
    fn emissions_with(lines: &[(Owner, u64, u64, u64)]) -> Result<Emissions, Placed> {
        let mut period = Period::from_numbers(&WHOLE_PERIOD);
        let line = |&(owner, class, quantity, factor)| Line {
            owner,
            class,
            quantity,
            factor,
        };
        period.lines = lines.iter().map(line).collect();
        emissions_of(&gram_totals_of(&period)?)
    }

    /// The same with lines of fuel alone.
    fn of_fuel(lines: &[(Owner, u64, u64)]) -> Result<Emissions, Placed> {
        let line = |&(owner, quantity, factor)| (owner, FUEL, quantity, factor);
        emissions_with(&lines.iter().map(line).collect::<Vec<_>>())
    }

    fn kg(plants: [u64; 2], segments: [u64; 2]) -> Result<Emissions, Placed> {
        Ok(Emissions {
            plants: plants.to_vec(),
            segments: segments.to_vec(),
        })
    }

    const FIRST: Owner = Owner::Plant(1);
    const SECOND: Owner = Owner::Plant(2);

    #[test]
    fn total_is_rounded_up_once() {
        assert_eq!(
            of_fuel(&[(FIRST, 1, 500), (FIRST, 500, 1)]),
            kg([1, 0], [0, 0]),
            "half a kg twice is one kg"
        );
        let a_gram_more = [(FIRST, 1, 500), (FIRST, 501, 1)];
        assert_eq!(of_fuel(&a_gram_more), kg([2, 0], [0, 0]));
        assert_eq!(of_fuel(&[(FIRST, 1, 1)]), kg([1, 0], [0, 0]));
        assert_eq!(of_fuel(&[(FIRST, 0, 9)]), kg([0, 0], [0, 0]));
    }

    #[test]
    fn each_owner_has_a_total_of_its_own() {
        let lines = [
            (SECOND, 1, 1000),
            (Owner::Segment(2), 2, 1500),
            (FIRST, 1, 999),
            (Owner::Segment(2), 1, 1),
        ];
        assert_eq!(of_fuel(&lines), kg([1, 1], [0, 4]));
    }

    #[test]
    fn limit_itself_is_allowed() {
        let lines = [
            (FIRST, 4_000_000_000, 1000),
            (Owner::Segment(1), 4_000, 1_000_000_000),
        ];
        let expected = kg([4_000_000_000, 0], [4_000_000_000, 0]);
        assert_eq!(of_fuel(&lines), expected);
    }

    #[test]
    fn line_that_passes_the_limit_is_named() {
        let lines = [
            (Owner::Segment(1), 1, 1),
            (Owner::Segment(2), 4_000_000_000, 1000),
            (FIRST, 4_000_000_000, 1000),
            (Owner::Segment(2), 0, 1_000_000_000),
            (Owner::Segment(2), 1, 1),
            (FIRST, 1, 1),
        ];
        assert_eq!(of_fuel(&lines), Err(Reason::GramTotal.at(5)));
    }

    #[test]
    fn largest_products_are_refused() {
        let line = (FIRST, 4_000_000_000, 1_000_000_000);
        assert_eq!(of_fuel(&[line]), Err(Reason::GramTotal.at(1)));
    }

    #[test]
    fn captured_grams_are_taken_before_the_total_is_rounded() {
        let lines = [
            (FIRST, CAPTURED_FOSSIL, 1, 1000),
            (FIRST, FUEL, 1500, 1),
            (FIRST, INPUTS, 400, 1),
        ];
        assert_eq!(emissions_with(&lines), kg([1, 0], [0, 0]), "900 g are left");
        let all_fuel = [
            (FIRST, FUEL, 2, 1500),
            (FIRST, CAPTURED_FOSSIL, 3, 1000),
            (SECOND, CAPTURED_FOSSIL, 0, 1000),
        ];
        assert_eq!(emissions_with(&all_fuel), kg([0, 0], [0, 0]));
    }

    #[test]
    fn only_the_plants_own_fuel_counts() {
        let captured = (SECOND, CAPTURED_FOSSIL, 1, 1000);
        for other in [
            (SECOND, FUEL, 999, 1),
            (SECOND, INPUTS, 5, 1000),
            (FIRST, FUEL, 5, 1000),
            (Owner::Segment(2), FUEL, 5, 1000),
        ] {
            let refused = Err(Reason::CapturedAboveFuel.at(2));
            assert_eq!(emissions_with(&[captured, other]), refused);
            assert_eq!(emissions_with(&[other, captured]), refused);
        }
    }

    #[test]
    fn captured_grams_make_no_room_and_take_none() {
        let captured = (FIRST, CAPTURED_FOSSIL, 4_000_000_000, 1000);
        let at_limit = (FIRST, FUEL, 4_000_000_000, 1000);
        let lines = [captured, at_limit, (FIRST, INPUTS, 1, 1)];
        assert_eq!(emissions_with(&lines[..2]), kg([0, 0], [0, 0]));
        assert_eq!(emissions_with(&lines), Err(Reason::GramTotal.at(3)));
        let often = [captured; 512];
        let refused = Err(Reason::CapturedAboveFuel.at(1));
        assert_eq!(emissions_with(&often), refused);
    }
}
