//! Seeded lines of what is emitted, chosen with the inflow of each segment known.

use crate::numbers::number::LIMIT;
use crate::periods::classes::{emitting_classes_of, GRAMS_OF_A_KG};
use crate::periods::emissions::LARGEST_GRAM_TOTAL;
use crate::periods::records::{Line, Owner};
use crate::seeded::Seeded;

/// What the lines add up to.
#[derive(Clone, Copy, Debug, PartialEq, Eq)]
pub enum Lines {
    /// There are no lines.
    None,
    /// Grams of any size within the limit, none at segments without inflow.
    Any,
    /// Lines that all have 0 grams.
    WithoutGrams,
    /// As `Any`, one owner exactly at the limit.
    ToLimit,
    /// As `Any`, one owner one gram past the limit.
    OnePast,
    /// As `Any`, one line far past the limit.
    FarPast,
    /// As `Any`, with grams at a segment without inflow.
    WhereNothingFlows,
}

/// The most grams of an ordinary line: one owner may have all lines.
pub const MOST_LINE_GRAMS: u64 = LARGEST_GRAM_TOTAL / *Line::COUNT.end();
/// The most units and the most grams a unit at a segment without inflow.
const MOST_WHERE_NOTHING_FLOWS: u64 = 2000;

impl Lines {
    /// The fewest lines that are needed.
    pub fn least_lines(self) -> u64 {
        match self {
            Lines::None | Lines::Any | Lines::WithoutGrams => 0,
            Lines::FarPast | Lines::WhereNothingFlows => 1,
            Lines::ToLimit | Lines::OnePast => 2,
        }
    }
}

/// Makes `count` lines for the plants and for the segments with these inflows.
pub fn seeded_lines(
    lines: Lines,
    count: usize,
    inflows: &[u64],
    plants: usize,
    seeded: &mut Seeded,
) -> Vec<Line> {
    if lines == Lines::None {
        return Vec::new();
    }
    let most_grams = match lines {
        Lines::WithoutGrams => 0,
        _ => seeded.of_any_size(MOST_LINE_GRAMS),
    };
    let mut made: Vec<Line> = (0..count)
        .map(|_| {
            let owner = seeded_owner(plants, inflows.len(), seeded);
            let dry = nothing_flows(owner, inflows);
            seeded_line(owner, if dry { 0 } else { most_grams }, seeded)
        })
        .collect();
    match lines {
        Lines::None | Lines::Any | Lines::WithoutGrams => {}
        Lines::ToLimit => {
            let owner = owner_with_flow(plants, inflows, seeded);
            bring_to_limit(&mut made, owner, 0, seeded);
        }
        Lines::OnePast => {
            let owner = seeded_owner(plants, inflows.len(), seeded);
            bring_to_limit(&mut made, owner, 1, seeded);
        }
        Lines::FarPast => {
            let line = seeded.up_to(count - 1);
            made[line].quantity = LIMIT;
            made[line].factor = seeded.within(GRAMS_OF_A_KG + 1..=*Line::FACTORS.end());
        }
        Lines::WhereNothingFlows => add_where_nothing_flows(&mut made, inflows, seeded),
    }
    made
}

/// True for a segment whose inflow is 0.
fn nothing_flows(owner: Owner, inflows: &[u64]) -> bool {
    match owner {
        Owner::Plant(_) => false,
        Owner::Segment(number) => inflows[number - 1] == 0,
    }
}

/// Any owner: plants and segments are equally likely.
fn seeded_owner(plants: usize, segments: usize, seeded: &mut Seeded) -> Owner {
    if seeded.one_in(2) {
        Owner::Plant(1 + seeded.up_to(plants - 1))
    } else {
        Owner::Segment(1 + seeded.up_to(segments - 1))
    }
}

/// Any owner that may have emissions.
fn owner_with_flow(plants: usize, inflows: &[u64], seeded: &mut Seeded) -> Owner {
    let owner = seeded_owner(plants, inflows.len(), seeded);
    if nothing_flows(owner, inflows) {
        Owner::Plant(1 + seeded.up_to(plants - 1))
    } else {
        owner
    }
}

/// A line of the owner with at most `most_grams` grams.
fn seeded_line(owner: Owner, most_grams: u64, seeded: &mut Seeded) -> Line {
    let class = seeded_class(owner, seeded);
    let quantity = seeded.of_any_size(LIMIT);
    let factor = seeded.of_any_size(*Line::FACTORS.end());
    let (quantity, factor) = if seeded.one_in(2) {
        (quantity, factor.min(most_grams / quantity.max(1)))
    } else {
        (quantity.min(most_grams / factor.max(1)), factor)
    };
    Line {
        owner,
        class,
        quantity,
        factor,
    }
}

/// Any class that the owner may have and whose grams it emits.
fn seeded_class(owner: Owner, seeded: &mut Seeded) -> u64 {
    let (kind, _) = owner.numbers();
    seeded.within(emitting_classes_of(kind))
}

/// Makes two lines the owner's, which add up to the limit and `more` grams
/// past it; its other lines have no grams.
fn bring_to_limit(lines: &mut [Line], owner: Owner, more: u64, seeded: &mut Seeded) {
    for line in lines.iter_mut().filter(|line| line.owner == owner) {
        line.factor = 0;
    }
    let first = seeded.up_to(lines.len() - 2);
    let second = first + 1 + seeded.up_to(lines.len() - first - 2);
    let (large, small) = if seeded.one_in(2) {
        (first, second)
    } else {
        (second, first)
    };
    let kg_of_small = seeded.of_any_size(LIMIT / GRAMS_OF_A_KG - 1);
    lines[large] = Line {
        owner,
        class: seeded_class(owner, seeded),
        quantity: LIMIT - kg_of_small,
        factor: GRAMS_OF_A_KG,
    };
    lines[small] = Line {
        owner,
        class: seeded_class(owner, seeded),
        quantity: kg_of_small * GRAMS_OF_A_KG + more,
        factor: 1,
    };
}

/// Makes one line that of a segment without inflow, if there is such a segment.
fn add_where_nothing_flows(lines: &mut [Line], inflows: &[u64], seeded: &mut Seeded) {
    let dry: Vec<usize> = (1..=inflows.len())
        .filter(|number| inflows[number - 1] == 0)
        .collect();
    if dry.is_empty() {
        return;
    }
    let owner = Owner::Segment(seeded.pick(&dry));
    let line = seeded.up_to(lines.len() - 1);
    lines[line] = Line {
        owner,
        class: seeded_class(owner, seeded),
        quantity: seeded.within(1..=MOST_WHERE_NOTHING_FLOWS),
        factor: seeded.within(1..=MOST_WHERE_NOTHING_FLOWS),
    };
}
