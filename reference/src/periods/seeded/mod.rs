//! Seeded periods, made to a wish.

mod captured;
pub mod damage;
mod exports;
mod lines;
mod outflows;
pub mod period_cases;
mod routes;
pub mod wishes;

use super::records::{Period, Plant};
use crate::seeded::Seeded;
use captured::Captured;
use std::ops::RangeInclusive;
use wishes::{Fractions, Wish};

/// Makes a period to the wish.
pub fn seeded_period(wish: &Wish, seeded: &mut Seeded) -> Period {
    let ranges = wish.size.ranges();
    let plants = drawn_count(&ranges.plants, wish.exports.least_plants(), seeded);
    let segments = drawn_count(&ranges.segments, wish.routes.least_segments(), seeded);
    let least_lines = wish.lines.least_lines() + wish.captured.least_lines();
    let lines = drawn_count(&ranges.lines, least_lines, seeded);
    let captured_lines = drawn_captured_lines(wish, lines, seeded);

    let mut period = routes::seeded_routes(wish.routes, plants, segments, seeded);
    for plant in &mut period.plants {
        plant.fraction = seeded_fraction(wish.fractions, seeded);
    }
    exports::set_exports(wish.exports, &mut period, seeded);
    let inflows = outflows::set_outflows(wish.outflows, &mut period, seeded);
    let emitted_lines = lines - captured_lines;
    period.lines = lines::seeded_lines(wish.lines, emitted_lines, &inflows, plants, seeded);
    let lines = &mut period.lines;
    captured::add_captured(wish.captured, captured_lines, lines, plants, seeded);
    period
}

/// How many of the lines are about captured CO2: as many as it needs, up to all that the others
/// leave.
fn drawn_captured_lines(wish: &Wish, lines: usize, seeded: &mut Seeded) -> usize {
    if wish.captured == Captured::None {
        return 0;
    }
    let least = wish.captured.least_lines();
    let left = lines as u64 - wish.lines.least_lines();
    seeded.within(least..=left) as usize
}

/// A count of the range, but not below the least.
fn drawn_count(range: &RangeInclusive<u64>, least: u64, seeded: &mut Seeded) -> usize {
    let least = least.max(*range.start());
    seeded.within(least..=*range.end()) as usize
}

/// A fraction as the knob says.
fn seeded_fraction(fractions: Fractions, seeded: &mut Seeded) -> u64 {
    const EACH: [Fractions; 3] = [Fractions::Zero, Fractions::Whole, Fractions::Between];
    match fractions {
        Fractions::Zero => 0,
        Fractions::Whole => Plant::WHOLE_FRACTION,
        Fractions::Between => seeded.within(1..=Plant::WHOLE_FRACTION - 1),
        Fractions::Mixed => {
            let one = seeded.pick(&EACH);
            seeded_fraction(one, seeded)
        }
    }
}

#[cfg(test)]
mod tests {
    use super::exports::Exports;
    use super::lines::Lines;
    use super::outflows::Outflows;
    use super::routes::Routes;
    use super::wishes::{Size, ACCEPTED, ORDINARY};
    use super::*;
    use crate::numbers::number::LIMIT;
    use crate::numbers::writing::write_numbers;
    use crate::periods::accounts::{account, Tables};
    use crate::periods::rows::{PlantRow, Rows, SegmentRow};

    /// How many periods are made to each wish.
    const TIMES: u64 = 30;

    /// Rows of periods to the wish, each of another seed.
    fn rows_to(wish: &Wish) -> Vec<Rows> {
        let rows = (0..TIMES).map(|seed| {
            let period = seeded_period(wish, &mut Seeded::new(seed));
            let file = write_numbers(&period.numbers());
            account(&file, Tables::LARGE_ENOUGH).unwrap_or_else(|refused| {
                panic!("{wish:?} with seed {seed}: {refused}");
            })
        });
        rows.collect()
    }

    /// True if a segment of some period to the wish is as asked.
    fn some_segment(wish: &Wish, asked: fn(&SegmentRow) -> bool) -> bool {
        rows_to(wish)
            .iter()
            .any(|rows| rows.segments.iter().any(asked))
    }

    /// True if a plant of some period to the wish is as asked.
    fn some_plant(wish: &Wish, asked: fn(&PlantRow) -> bool) -> bool {
        rows_to(wish)
            .iter()
            .any(|rows| rows.plants.iter().any(asked))
    }

    #[test]
    fn accepted_wishes_are_accepted_at_every_size() {
        for wish in ACCEPTED {
            for size in [Size::Small, Size::Middle, Size::Full] {
                rows_to(&Wish { size, ..wish });
            }
        }
    }

    #[test]
    fn full_size_has_as_many_records_as_there_can_be() {
        let wish = Wish {
            size: Size::Full,
            ..ORDINARY
        };
        let period = seeded_period(&wish, &mut Seeded::new(1));
        assert_eq!(period.numbers()[1..4], [16, 32, 512]);
    }

    #[test]
    fn knobs_of_the_flow_are_reached() {
        let outflows = |outflows| Wish {
            outflows,
            ..ORDINARY
        };
        assert!(some_segment(&outflows(Outflows::All), |row| {
            row.inflow > 0 && row.lost == 0
        }));
        assert!(some_segment(&outflows(Outflows::Nothing), |row| {
            row.inflow > 0 && row.outflow == 0
        }));
        assert!(some_segment(&outflows(Outflows::BitBelow), |row| {
            row.lost > 0 && row.lost <= row.inflow / 50
        }));
    }

    #[test]
    fn knobs_of_the_exports_are_reached() {
        let exports = |exports| Wish {
            exports,
            outflows: Outflows::All,
            ..ORDINARY
        };
        let wish = exports(Exports::ToLimit);
        assert!(some_segment(&wish, |row| row.inflow == LIMIT));
        let wish = exports(Exports::SomeNothing);
        assert!(some_plant(&wish, |row| row.exported == 0));
        assert!(some_plant(&wish, |row| row.exported > 0));
        let wish = exports(Exports::Nothing);
        assert!(!some_segment(&wish, |row| row.inflow > 0));
        assert!(some_plant(&wish, |row| row.deficit > 0));
    }

    #[test]
    fn knobs_of_the_routes_are_reached() {
        let routes = |routes| Wish {
            size: Size::Middle,
            routes,
            ..ORDINARY
        };
        assert!(some_segment(&routes(Routes::FirstUnpassed), |row| {
            row.plants == 0
        }));
        for rows in rows_to(&routes(Routes::ThroughAll)) {
            let all = (1 << rows.plants.len()) - 1;
            assert!(rows.segments.iter().all(|row| row.plants == all));
        }
        for seed in 0..TIMES {
            let period = seeded_period(&routes(Routes::Apart), &mut Seeded::new(seed));
            let plants = period.plants.len().min(period.segments.len());
            let stores = period.segments.iter().filter(|segment| segment.is_store());
            assert_eq!(stores.count(), plants, "one store for each route");
        }
    }

    #[test]
    fn knobs_of_the_lines_are_reached() {
        let lines = |lines| Wish { lines, ..ORDINARY };
        let wish = lines(Lines::ToLimit);
        assert!(some_segment(&wish, |row| row.emission == LIMIT));
        assert!(some_plant(&wish, |row| row.associated >= LIMIT));
        let wish = Wish {
            captured: Captured::NoKg,
            ..lines(Lines::WithoutGrams)
        };
        assert!(!some_plant(&wish, |row| row.associated > 0));
        let wish = lines(Lines::Any);
        assert!(some_plant(&wish, |row| row.units > 0 && row.associated > 0));
        assert!(some_plant(&wish, |row| row.deficit > 0));
        let wish = Wish {
            captured: Captured::None,
            ..lines(Lines::None)
        };
        let period = seeded_period(&wish, &mut Seeded::new(1));
        assert!(period.lines.is_empty());
    }

    #[test]
    fn largest_product_is_reached() {
        let wish = Wish {
            routes: Routes::ThroughAll,
            exports: Exports::ToLimit,
            outflows: Outflows::All,
            lines: Lines::ToLimit,
            ..ORDINARY
        };
        assert!(some_segment(&wish, |row| {
            row.inflow == LIMIT && row.emission == LIMIT
        }));
    }
}
