//! The records of a period file, with the limits of their fields.

use crate::numbers::number::LIMIT;
use std::ops::RangeInclusive;

/// The only edition there is.
pub const EDITION: u64 = 1;
/// Numbers of the header: edition, plants, segments, lines.
pub const HEADER_NUMBERS: usize = 4;
/// Places of the counts in the header.
pub const PLANTS_AT: usize = 1;
pub const SEGMENTS_AT: usize = 2;
pub const LINES_AT: usize = 3;
/// Every number there is: fields of kg and quantities have no limit of their own.
pub const ANY_NUMBER: RangeInclusive<u64> = 0..=LIMIT;

/// What a capture plant exported, where to, and how much of it is of allowed origin.
#[derive(Clone, Debug, PartialEq, Eq)]
pub struct Plant {
    pub exported: u64,
    /// The number of the segment its route starts with.
    pub first_segment: usize,
    /// The origin fraction, in millionths.
    pub fraction: u64,
}

impl Plant {
    /// How many plants a period may have.
    pub const COUNT: RangeInclusive<u64> = 1..=16;
    /// Numbers of a record.
    pub const NUMBERS: usize = 3;
    /// The fraction that is the whole.
    pub const WHOLE_FRACTION: u64 = 1_000_000;

    /// The record from its numbers in file order.
    fn from_numbers(numbers: &[u64]) -> Self {
        Plant {
            exported: numbers[0],
            first_segment: numbers[1] as usize,
            fraction: numbers[2],
        }
    }

    /// The numbers of the record in file order.
    fn numbers(&self) -> [u64; Plant::NUMBERS] {
        [self.exported, self.first_segment as u64, self.fraction]
    }
}

/// A part of the way to storage, with what its meter counted at the end.
#[derive(Clone, Debug, PartialEq, Eq)]
pub struct Segment {
    pub kind: u64,
    /// The metered outflow in kg.
    pub outflow: u64,
    /// The number of the next segment; 0 at a store.
    pub next: usize,
}

impl Segment {
    /// How many segments a period may have.
    pub const COUNT: RangeInclusive<u64> = 1..=32;
    /// Numbers of a record.
    pub const NUMBERS: usize = 3;
    /// The place of the next segment in a record; the kind comes first.
    pub const NEXT_AT: usize = 2;
    /// The kinds there are, the geological store last.
    pub const KINDS: RangeInclusive<u64> = 1..=Segment::STORE;
    /// The kind that ends a route.
    pub const STORE: u64 = 6;

    pub fn is_store(&self) -> bool {
        self.kind == Segment::STORE
    }

    /// The record from its numbers in file order.
    fn from_numbers(numbers: &[u64]) -> Self {
        Segment {
            kind: numbers[0],
            outflow: numbers[1],
            next: numbers[2] as usize,
        }
    }

    /// The numbers of the record in file order.
    fn numbers(&self) -> [u64; Segment::NUMBERS] {
        [self.kind, self.outflow, self.next as u64]
    }
}

/// Who causes the emission of a line, by number.
#[derive(Clone, Copy, Debug, PartialEq, Eq)]
pub enum Owner {
    Plant(usize),
    Segment(usize),
}

impl Owner {
    /// The code of a plant as owner kind.
    pub const PLANT: u64 = 0;
    /// The code of a segment as owner kind.
    pub const SEGMENT: u64 = 1;
    /// The owner kinds there are.
    pub const KINDS: RangeInclusive<u64> = Owner::PLANT..=Owner::SEGMENT;

    /// The owner from its kind and number.
    fn from_numbers(kind: u64, number: usize) -> Self {
        if kind == Owner::PLANT {
            Owner::Plant(number)
        } else {
            Owner::Segment(number)
        }
    }

    /// The kind and the number of the owner.
    pub fn numbers(self) -> (u64, usize) {
        match self {
            Owner::Plant(number) => (Owner::PLANT, number),
            Owner::Segment(number) => (Owner::SEGMENT, number),
        }
    }
}

/// A quantity of something, and the grams CO2e of one unit of it, which are emitted or, for one
/// class, captured.
#[derive(Clone, Debug, PartialEq, Eq)]
pub struct Line {
    pub owner: Owner,
    pub class: u64,
    pub quantity: u64,
    /// Grams CO2e per unit.
    pub factor: u64,
}

impl Line {
    /// How many lines a period may have.
    pub const COUNT: RangeInclusive<u64> = 0..=512;
    /// Numbers of a record.
    pub const NUMBERS: usize = 5;
    /// Places of fields in a record; the owner kind comes first.
    pub const OWNER_NUMBER_AT: usize = 1;
    pub const CLASS_AT: usize = 2;
    pub const FACTOR_AT: usize = 4;
    /// The factors there are; a class may allow fewer.
    pub const FACTORS: RangeInclusive<u64> = 0..=1_000_000_000;

    /// The record from its numbers in file order.
    fn from_numbers(numbers: &[u64]) -> Self {
        Line {
            owner: Owner::from_numbers(numbers[0], numbers[1] as usize),
            class: numbers[2],
            quantity: numbers[3],
            factor: numbers[4],
        }
    }

    /// The numbers of the record in file order.
    fn numbers(&self) -> [u64; Line::NUMBERS] {
        let (kind, number) = self.owner.numbers();
        [kind, number as u64, self.class, self.quantity, self.factor]
    }
}

/// All records of a period, each kind numbered from 1 in file order.
#[derive(Clone, Debug, PartialEq, Eq)]
pub struct Period {
    pub plants: Vec<Plant>,
    pub segments: Vec<Segment>,
    pub lines: Vec<Line>,
}

impl Period {
    /// The records from all numbers of a whole file.
    pub fn from_numbers(numbers: &[u64]) -> Self {
        let (header, records) = numbers.split_at(HEADER_NUMBERS);
        let (plants, records) = records.split_at(header[PLANTS_AT] as usize * Plant::NUMBERS);
        let (segments, lines) = records.split_at(header[SEGMENTS_AT] as usize * Segment::NUMBERS);
        Period {
            plants: plants
                .chunks(Plant::NUMBERS)
                .map(Plant::from_numbers)
                .collect(),
            segments: segments
                .chunks(Segment::NUMBERS)
                .map(Segment::from_numbers)
                .collect(),
            lines: lines
                .chunks(Line::NUMBERS)
                .map(Line::from_numbers)
                .collect(),
        }
    }

    /// The place that the first number of a line has in the file.
    pub fn place_of_line(&self, line: usize) -> usize {
        let plants = self.plants.len() * Plant::NUMBERS;
        let segments = self.segments.len() * Segment::NUMBERS;
        HEADER_NUMBERS + plants + segments + (line - 1) * Line::NUMBERS
    }

    /// All numbers of the file in its order.
    pub fn numbers(&self) -> Vec<u64> {
        let counts = [self.plants.len(), self.segments.len(), self.lines.len()];
        let mut numbers = vec![EDITION];
        numbers.extend(counts.map(|count| count as u64));
        numbers.extend(self.plants.iter().flat_map(Plant::numbers));
        numbers.extend(self.segments.iter().flat_map(Segment::numbers));
        numbers.extend(self.lines.iter().flat_map(Line::numbers));
        numbers
    }
}

#[cfg(test)]
mod tests {
    use super::*;
    use crate::periods::paper::WHOLE_PERIOD;

    #[test]
    fn records_of_the_whole_period() {
        let period = Period::from_numbers(&WHOLE_PERIOD);
        let second_plant = Plant {
            exported: 5001,
            first_segment: 1,
            fraction: 900_000,
        };
        let first_segment = Segment {
            kind: 1,
            outflow: 14_900,
            next: 2,
        };
        let second_line = Line {
            owner: Owner::Segment(1),
            class: 3,
            quantity: 101,
            factor: 2650,
        };
        assert_eq!(period.plants.len(), 2);
        assert_eq!(period.plants[1], second_plant);
        assert_eq!(period.segments.len(), 2);
        assert_eq!(period.segments[0], first_segment);
        assert_eq!(period.lines.len(), 2);
        assert_eq!(period.lines[0].owner, Owner::Plant(1));
        assert_eq!(period.lines[1], second_line);
    }

    #[test]
    fn numbers_of_the_records_are_those_of_the_file() {
        assert_eq!(Period::from_numbers(&WHOLE_PERIOD).numbers(), WHOLE_PERIOD);
    }

    #[test]
    fn lines_start_behind_plants_and_segments() {
        let mut period = Period::from_numbers(&WHOLE_PERIOD);
        assert_eq!(period.place_of_line(1), 16);
        assert_eq!(period.place_of_line(2), 21);
        period.plants.pop();
        assert_eq!(period.place_of_line(2), 18);
    }
}
