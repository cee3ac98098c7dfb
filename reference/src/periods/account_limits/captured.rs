//! What plants captured beside what their fuel gives: refusal 16, and none of refusal 10.

use super::full_size::{set_captured, set_grams, set_kg, through_all_at_limit, LINES, PLANTS};
use crate::numbers::number::LIMIT;
use crate::periods::classes::{GRAMS_OF_A_KG, INPUTS};
use crate::periods::emissions::LARGEST_GRAM_TOTAL;
use crate::periods::records::{Owner, Period};

/// The plants at both ends.
const PLANTS_AT_ENDS: [usize; 4] = [1, 2, PLANTS - 1, PLANTS];
/// Grams of fuel: none, around a kg, some, and around the most.
const FUEL_GRAMS: [u64; 8] = [
    0,
    999,
    1000,
    1001,
    1_234_567_999,
    LARGEST_GRAM_TOTAL - GRAMS_OF_A_KG,
    LARGEST_GRAM_TOTAL - 1,
    LARGEST_GRAM_TOTAL,
];
/// The four lines of a plant: two of its fuel, then two of what it captured.
const CAPTURED_LAST: [usize; 4] = [1, 255, 256, LINES];
const CAPTURED_FIRST: [usize; 4] = [257, LINES, 1, 256];
/// The lines with which a gram passes the limit.
const DECIDING_LINES: [usize; 3] = [4, 256, LINES];

/// One plant and all plants beside their fuel, all lines of one plant, and the limit of grams.
pub fn beside_fuel() -> Vec<Period> {
    let mut periods = of_one_plant();
    periods.extend(of_all_plants());
    for plant in [1, PLANTS] {
        periods.extend([0, 1].map(|more| all_lines_by_turns(plant, more)));
        periods.extend([0, 1].map(|grams| all_lines_largest(plant, grams)));
        for line in DECIDING_LINES {
            periods.extend([0, 1, LIMIT].map(|kg| gram_past_limit(plant, line, kg)));
        }
    }
    periods
}

/// Every amount of fuel with all its whole kg captured, and with one kg more.
fn of_one_plant() -> Vec<Period> {
    let mut periods = Vec::new();
    for plant in [1, PLANTS] {
        for grams in FUEL_GRAMS {
            for more in [0, 1] {
                periods.push(one_plant(plant, grams, more, CAPTURED_LAST));
                periods.push(one_plant(plant, grams, more, CAPTURED_FIRST));
            }
        }
    }
    periods
}

/// The plant has so many grams of fuel and captured all their whole kg and `more`.
fn one_plant(plant: usize, grams: u64, more: u64, lines: [usize; 4]) -> Period {
    let [fuel_kg, fuel_rest, captured, captured_rest] = lines;
    let kg = grams / GRAMS_OF_A_KG;
    let (half, other_half) = (kg / 2, kg - kg / 2);
    let mut period = through_all_at_limit();
    set_kg(&mut period, fuel_kg, Owner::Plant(plant), kg);
    set_grams(
        &mut period,
        fuel_rest,
        Owner::Plant(plant),
        grams % GRAMS_OF_A_KG,
    );
    set_captured(&mut period, captured, plant, half);
    set_captured(&mut period, captured_rest, plant, other_half + more);
    period
}

/// All plants captured all of their fuel; but each of them, each two at the ends, and all of them
/// one kg more.
fn of_all_plants() -> Vec<Period> {
    let mut periods = vec![all_plants(|_| 0), all_plants(|_| 1)];
    for above in 1..=PLANTS {
        periods.push(all_plants(|plant| u64::from(plant == above)));
    }
    for one in PLANTS_AT_ENDS {
        for other in PLANTS_AT_ENDS.into_iter().filter(|&other| other > one) {
            periods.push(all_plants(|plant| {
                u64::from(plant == one || plant == other)
            }));
        }
    }
    periods
}

/// Each plant has another amount of fuel, of which it captured all and so many kg more. The lines
/// of plants with higher numbers come first, and what is captured before the fuel.
fn all_plants(kg_more: impl Fn(usize) -> u64) -> Period {
    let mut period = through_all_at_limit();
    for (plant, line) in (1..=PLANTS).rev().zip(1..) {
        let kg = LIMIT / plant as u64;
        set_captured(&mut period, line, plant, kg - 1);
        set_captured(&mut period, PLANTS + line, plant, 1 + kg_more(plant));
        set_kg(&mut period, 2 * PLANTS + line, Owner::Plant(plant), kg);
    }
    period
}

/// All lines are the plant's, fuel and captured kg by turns: as much of each as there can be fuel,
/// and `more` captured kg in the last line.
fn all_lines_by_turns(plant: usize, more: u64) -> Period {
    const KG: u64 = 2 * LIMIT / LINES as u64;
    let mut period = through_all_at_limit();
    for line in (1..=LINES).step_by(2) {
        set_kg(&mut period, line, Owner::Plant(plant), KG);
        set_captured(&mut period, line + 1, plant, KG);
    }
    period.lines[LINES - 1].quantity += more;
    period
}

/// All lines say that the plant captured as much as a line can say, except that the last two say
/// that its fuel gave the most and so many grams more.
fn all_lines_largest(plant: usize, grams_more: u64) -> Period {
    let mut period = through_all_at_limit();
    for line in 1..=LINES {
        set_captured(&mut period, line, plant, LIMIT);
    }
    set_kg(&mut period, LINES - 1, Owner::Plant(plant), LIMIT);
    set_grams(&mut period, LINES, Owner::Plant(plant), grams_more);
    period
}

/// The plant's fuel gives the most, of which it captured so many kg, and a gram of its inputs in
/// this line is too many.
fn gram_past_limit(plant: usize, line: usize, captured_kg: u64) -> Period {
    let mut period = through_all_at_limit();
    set_captured(&mut period, 1, plant, captured_kg);
    set_kg(&mut period, 2, Owner::Plant(plant), LIMIT);
    set_grams(&mut period, line, Owner::Plant(plant), 1);
    period.lines[line - 1].class = INPUTS;
    period
}

#[cfg(test)]
mod tests {
    use super::super::answers::{answer, rows};
    use super::*;

    #[test]
    fn kg_more_than_the_fuel_gives_are_refused_at_the_plant() {
        for plant in [1, PLANTS] {
            for grams in FUEL_GRAMS {
                for lines in [CAPTURED_FIRST, CAPTURED_LAST] {
                    let within = rows(&one_plant(plant, grams, 0, lines));
                    let left = u64::from(grams % 1000 > 0);
                    assert_eq!(within.plants[plant - 1].associated, left);
                    let above = one_plant(plant, grams, 1, lines);
                    assert_eq!(answer(&above), format!("R 16 {plant}"));
                }
            }
        }
    }

    #[test]
    fn plant_of_lower_number_decides() {
        let all_captured = rows(&all_plants(|_| 0));
        assert!(all_captured.plants.iter().all(|row| row.associated == 0));
        assert_eq!(answer(&all_plants(|_| 1)), "R 16 1");
        for above in 1..=PLANTS {
            let period = all_plants(|plant| u64::from(plant >= above));
            assert_eq!(answer(&period), format!("R 16 {above}"));
        }
    }

    #[test]
    fn all_lines_count() {
        for plant in [1, PLANTS] {
            let all_captured = rows(&all_lines_by_turns(plant, 0));
            assert_eq!(all_captured.plants[plant - 1].associated, 0);
            let refused = format!("R 16 {plant}");
            assert_eq!(answer(&all_lines_by_turns(plant, 1)), refused);
            assert_eq!(answer(&all_lines_largest(plant, 0)), refused);
        }
    }

    #[test]
    fn captured_kg_make_no_room_for_other_grams() {
        for plant in [1, PLANTS] {
            assert_eq!(answer(&all_lines_largest(plant, 1)), "R 10 512");
            for line in DECIDING_LINES {
                for kg in [0, 1, LIMIT] {
                    let period = gram_past_limit(plant, line, kg);
                    assert_eq!(answer(&period), format!("R 10 {line}"));
                }
            }
        }
    }
}
