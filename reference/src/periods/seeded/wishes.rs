//! What seeded periods are to be like: each subject of the paper has its own knob.

use super::captured::Captured;
use super::exports::Exports;
use super::lines::Lines;
use super::outflows::Outflows;
use super::routes::Routes;
use crate::periods::records::{Line, Plant, Segment};
use crate::seeded::Seeded;
use std::ops::RangeInclusive;

/// What a seeded period is to be like. A wish that names no fault is accepted.
#[derive(Clone, Copy, Debug)]
pub struct Wish {
    pub size: Size,
    pub routes: Routes,
    pub exports: Exports,
    pub outflows: Outflows,
    pub fractions: Fractions,
    pub lines: Lines,
    pub captured: Captured,
}

impl Wish {
    /// Any accepted wish.
    pub fn any(size: Size, seeded: &mut Seeded) -> Self {
        Wish {
            size,
            ..seeded.pick(&ACCEPTED)
        }
    }

    /// Any accepted wish with lines, so that there is a field of every kind to damage.
    pub fn any_with_lines(size: Size, seeded: &mut Seeded) -> Self {
        Wish {
            lines: Lines::Any,
            ..Wish::any(size, seeded)
        }
    }
}

/// How many records there are.
#[derive(Clone, Copy, Debug, PartialEq, Eq)]
pub enum Size {
    Small,
    Middle,
    Full,
}

/// The origin fractions of the plants.
#[derive(Clone, Copy, Debug)]
pub enum Fractions {
    Zero,
    Whole,
    Between,
    /// Each plant has one of the others.
    Mixed,
}

/// The ranges that the counts of records are drawn from.
pub struct Ranges {
    pub plants: RangeInclusive<u64>,
    pub segments: RangeInclusive<u64>,
    pub lines: RangeInclusive<u64>,
}

impl Size {
    pub fn ranges(self) -> Ranges {
        match self {
            Size::Small => Ranges {
                plants: 1..=3,
                segments: 1..=4,
                lines: 1..=6,
            },
            Size::Middle => Ranges {
                plants: 2..=8,
                segments: 3..=16,
                lines: 8..=60,
            },
            Size::Full => Ranges {
                plants: most_of(&Plant::COUNT),
                segments: most_of(&Segment::COUNT),
                lines: most_of(&Line::COUNT),
            },
        }
    }
}

/// The range that holds only the largest number of this one.
fn most_of(range: &RangeInclusive<u64>) -> RangeInclusive<u64> {
    *range.end()..=*range.end()
}

/// An ordinary period, which the other wishes change at some knob.
pub const ORDINARY: Wish = Wish {
    size: Size::Small,
    routes: Routes::Meeting,
    exports: Exports::Any,
    outflows: Outflows::BitBelow,
    fractions: Fractions::Mixed,
    lines: Lines::Any,
    captured: Captured::Within,
};

/// Wishes that are accepted, every knob's settings among them.
pub const ACCEPTED: [Wish; 20] = [
    ORDINARY,
    Wish {
        routes: Routes::Scattered,
        ..ORDINARY
    },
    Wish {
        routes: Routes::ThroughAll,
        ..ORDINARY
    },
    Wish {
        routes: Routes::Apart,
        fractions: Fractions::Between,
        ..ORDINARY
    },
    Wish {
        routes: Routes::FirstUnpassed,
        ..ORDINARY
    },
    Wish {
        routes: Routes::ThroughAll,
        outflows: Outflows::All,
        fractions: Fractions::Whole,
        ..ORDINARY
    },
    Wish {
        outflows: Outflows::Nothing,
        ..ORDINARY
    },
    Wish {
        exports: Exports::Nothing,
        ..ORDINARY
    },
    Wish {
        exports: Exports::Nothing,
        lines: Lines::None,
        captured: Captured::None,
        ..ORDINARY
    },
    Wish {
        exports: Exports::SomeNothing,
        lines: Lines::WithoutGrams,
        captured: Captured::NoKg,
        ..ORDINARY
    },
    Wish {
        exports: Exports::SomeNothing,
        routes: Routes::ThroughAll,
        outflows: Outflows::Any,
        ..ORDINARY
    },
    Wish {
        exports: Exports::ToLimit,
        outflows: Outflows::All,
        fractions: Fractions::Between,
        ..ORDINARY
    },
    Wish {
        exports: Exports::ToLimit,
        routes: Routes::Apart,
        ..ORDINARY
    },
    Wish {
        lines: Lines::ToLimit,
        ..ORDINARY
    },
    Wish {
        routes: Routes::Scattered,
        fractions: Fractions::Zero,
        lines: Lines::ToLimit,
        ..ORDINARY
    },
    Wish {
        routes: Routes::Scattered,
        outflows: Outflows::Mixed,
        ..ORDINARY
    },
    Wish {
        routes: Routes::ThroughAll,
        exports: Exports::ToLimit,
        outflows: Outflows::All,
        lines: Lines::ToLimit,
        ..ORDINARY
    },
    Wish {
        captured: Captured::None,
        ..ORDINARY
    },
    Wish {
        captured: Captured::AllFuel,
        ..ORDINARY
    },
    Wish {
        routes: Routes::Scattered,
        lines: Lines::ToLimit,
        captured: Captured::AllFuel,
        ..ORDINARY
    },
];
