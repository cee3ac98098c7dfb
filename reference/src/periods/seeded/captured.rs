//! Seeded lines of fossil CO2 that plants capture with the rest, and of the fuel it comes from.

use super::lines::MOST_LINE_GRAMS;
use crate::numbers::number::LIMIT;
use crate::periods::classes::{CAPTURED_FOSSIL, FUEL, GRAMS_OF_A_KG};
use crate::periods::emissions::{Grams, LARGEST_GRAM_TOTAL};
use crate::periods::records::{Line, Owner};
use crate::seeded::Seeded;

/// What the plants capture of their fuel's CO2.
#[derive(Clone, Copy, Debug, PartialEq, Eq)]
pub enum Captured {
    /// There are no such lines.
    None,
    /// Lines of 0 kg, whether there is fuel or not.
    NoKg,
    /// Anything up to what the fuel gives.
    Within,
    /// As `Within`, one plant all that its fuel gives.
    AllFuel,
    /// As `Within`, one plant one kg more than its fuel gives.
    OnePast,
    /// One plant as much as its lines can hold.
    FarPast,
}

impl Captured {
    /// The fewest lines that are needed.
    pub fn least_lines(self) -> u64 {
        match self {
            Captured::None | Captured::NoKg | Captured::Within => 0,
            Captured::FarPast => 1,
            Captured::AllFuel | Captured::OnePast => LINES_TO_MEET_FUEL as u64,
        }
    }
}

/// How many lines make what is captured meet the fuel: one of fuel, and one of captured kg.
const LINES_TO_MEET_FUEL: usize = 2;

/// Puts `count` lines about captured CO2 between the others, which are all there already.
pub fn add_captured(
    captured: Captured,
    count: usize,
    lines: &mut Vec<Line>,
    plants: usize,
    seeded: &mut Seeded,
) {
    let mut to_add = LinesToAdd::beside(lines, plants);
    let plant = 1 + seeded.up_to(plants - 1);
    match captured {
        Captured::None => {}
        Captured::NoKg => to_add.no_kg(count, seeded),
        Captured::Within => to_add.within_fuel(count, seeded),
        Captured::AllFuel | Captured::OnePast => {
            to_add.within_fuel(count - LINES_TO_MEET_FUEL, seeded);
            let more = u64::from(captured == Captured::OnePast);
            to_add.meet_fuel(plant, more);
        }
        Captured::FarPast => to_add.far_past(plant, count),
    }
    for line in to_add.lines {
        let last = lines.len();
        lines.push(line);
        lines.swap(seeded.up_to(last), last);
    }
}

/// Lines that are to be added, with the grams of every plant so far.
struct LinesToAdd {
    lines: Vec<Line>,
    grams: Vec<Grams>,
}

impl LinesToAdd {
    /// No lines yet, beside those that are there already.
    fn beside(lines: &[Line], plants: usize) -> Self {
        let mut grams = vec![Grams::default(); plants];
        for line in lines {
            if let Owner::Plant(number) = line.owner {
                grams[number - 1].add(line);
            }
        }
        LinesToAdd {
            lines: Vec::new(),
            grams,
        }
    }

    /// Adds a line of a plant.
    fn add(&mut self, plant: usize, class: u64, quantity: u64, factor: u64) {
        let line = Line {
            owner: Owner::Plant(plant),
            class,
            quantity,
            factor,
        };
        self.grams[plant - 1].add(&line);
        self.lines.push(line);
    }

    /// Adds lines of 0 captured kg, of any plants.
    fn no_kg(&mut self, count: usize, seeded: &mut Seeded) {
        for _ in 0..count {
            let plant = 1 + seeded.up_to(self.grams.len() - 1);
            self.add(plant, CAPTURED_FOSSIL, 0, GRAMS_OF_A_KG);
        }
    }

    /// Adds lines of fuel and of captured kg, no more than it gives, of any plants.
    fn within_fuel(&mut self, count: usize, seeded: &mut Seeded) {
        for _ in 0..count {
            if seeded.one_in(2) {
                let plant = 1 + seeded.up_to(self.grams.len() - 1);
                let most = self.grams_to_limit(plant).min(MOST_LINE_GRAMS);
                self.add(plant, FUEL, seeded.of_any_size(most).min(LIMIT), 1);
            } else {
                let plant = self.plant_with_fuel(seeded);
                let most = self.kg_not_captured(plant);
                self.add(
                    plant,
                    CAPTURED_FOSSIL,
                    seeded.of_any_size(most),
                    GRAMS_OF_A_KG,
                );
            }
        }
    }

    /// A plant whose fuel gives kg that are not captured yet; any if there is none.
    fn plant_with_fuel(&self, seeded: &mut Seeded) -> usize {
        let plants: Vec<usize> = (1..=self.grams.len()).collect();
        let with_fuel = plants
            .iter()
            .copied()
            .filter(|&plant| self.kg_not_captured(plant) > 0);
        match &with_fuel.collect::<Vec<_>>()[..] {
            [] => seeded.pick(&plants),
            with_fuel => seeded.pick(with_fuel),
        }
    }

    /// Brings the fuel of a plant to whole kg, if its limit leaves room for that, and captures all
    /// of them and `more` kg.
    fn meet_fuel(&mut self, plant: usize, more: u64) {
        let over = (self.grams[plant - 1].fuel % u128::from(GRAMS_OF_A_KG)) as u64;
        let missing = (GRAMS_OF_A_KG - over).min(self.grams_to_limit(plant));
        self.add(plant, FUEL, missing, 1);
        let kg = self.kg_not_captured(plant) + more;
        self.add(plant, CAPTURED_FOSSIL, kg.min(LIMIT), GRAMS_OF_A_KG);
    }

    /// A plant captures as much as a line can say, so many times.
    fn far_past(&mut self, plant: usize, count: usize) {
        for _ in 0..count {
            self.add(plant, CAPTURED_FOSSIL, LIMIT, GRAMS_OF_A_KG);
        }
    }

    /// How many grams a plant may still emit.
    fn grams_to_limit(&self, plant: usize) -> u64 {
        let emitted = self.grams[plant - 1].emitted;
        let room = u128::from(LARGEST_GRAM_TOTAL).saturating_sub(emitted);
        u64::try_from(room).expect("the room is at most the limit")
    }

    /// How many whole kg the fuel of a plant gives besides those that are captured; no more than a
    /// line can say.
    fn kg_not_captured(&self, plant: usize) -> u64 {
        let Grams { fuel, captured, .. } = self.grams[plant - 1];
        let kg = (fuel - captured) / u128::from(GRAMS_OF_A_KG);
        u64::try_from(kg).map_or(LIMIT, |kg| kg.min(LIMIT))
    }
}

#[cfg(test)]
mod tests {
    use super::*;
    use crate::periods::records::Period;
    use crate::periods::seeded::seeded_period;
    use crate::periods::seeded::wishes::{Size, Wish, ORDINARY};

    /// How many periods are made to each wish.
    const TIMES: u64 = 200;

    /// The captured kg of each plant, and the grams of its fuel.
    fn captured_beside_fuel(period: &Period) -> Vec<(u64, u64)> {
        let mut plants = vec![(0, 0); period.plants.len()];
        for line in &period.lines {
            match (line.owner, line.class) {
                (Owner::Plant(plant), 9) => plants[plant - 1].0 += line.quantity,
                (Owner::Plant(plant), 3) => plants[plant - 1].1 += line.quantity * line.factor,
                _ => {}
            }
        }
        plants
    }

    /// True if a plant of some period to the wish captures beside its fuel as asked.
    fn some_captured(wish: &Wish, asked: fn((u64, u64)) -> bool) -> bool {
        (0..TIMES).any(|seed| {
            let period = seeded_period(wish, &mut Seeded::new(seed));
            captured_beside_fuel(&period).into_iter().any(asked)
        })
    }

    #[test]
    fn knobs_of_captured_kg_are_reached() {
        let captured = |captured| Wish {
            captured,
            ..ORDINARY
        };
        let some_of_it = |(kg, grams): (u64, u64)| kg > 0 && kg * 1000 < grams;
        let all_of_it = |(kg, grams): (u64, u64)| kg > 0 && kg * 1000 == grams;
        let one_kg_more = |(kg, grams): (u64, u64)| kg > 1 && kg * 1000 == grams + 1000;
        let far_more = |(kg, grams): (u64, u64)| kg > LIMIT && kg * 1000 > grams;
        assert!(some_captured(&captured(Captured::Within), some_of_it));
        assert!(some_captured(&captured(Captured::AllFuel), all_of_it));
        assert!(some_captured(&captured(Captured::OnePast), one_kg_more));
        let wish = Wish {
            size: Size::Middle,
            ..captured(Captured::FarPast)
        };
        assert!(some_captured(&wish, far_more));
    }

    #[test]
    fn captured_kg_come_often_before_and_behind_fuel() {
        const AT_LEAST: usize = 20;
        let mut met = [0, 0];
        for seed in 0..TIMES {
            let period = seeded_period(&ORDINARY, &mut Seeded::new(seed));
            let place_of = |class| period.lines.iter().position(|line| line.class == class);
            if let (Some(captured), Some(fuel)) = (place_of(9), place_of(3)) {
                met[usize::from(captured < fuel)] += 1;
            }
        }
        assert!(met.iter().all(|&times| times >= AT_LEAST), "{met:?}");
    }
}
