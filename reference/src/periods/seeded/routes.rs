//! Seeded routes: where the plants start and where the segments lead.

use crate::periods::records::{Period, Plant, Segment};
use crate::seeded::Seeded;

/// How the routes run.
#[derive(Clone, Copy, Debug)]
pub enum Routes {
    /// One store, the last segment: all routes meet there at the latest.
    Meeting,
    /// Stores before the last segment too.
    Scattered,
    /// All plants take one long route through all segments.
    ThroughAll,
    /// Routes side by side that never meet, as many as can be.
    Apart,
    /// As `Meeting`, with no route passing the first half of the segments.
    FirstUnpassed,
}

/// One segment in this many is a store if stores are scattered.
const SEGMENTS_TO_A_STORE: usize = 3;

impl Routes {
    /// The fewest segments such routes need.
    pub fn least_segments(self) -> u64 {
        match self {
            Routes::ThroughAll | Routes::FirstUnpassed => 2,
            Routes::Meeting | Routes::Scattered | Routes::Apart => 1,
        }
    }
}

/// A period of plants and segments on such routes, all amounts still 0.
pub fn seeded_routes(
    routes: Routes,
    plants: usize,
    segments: usize,
    seeded: &mut Seeded,
) -> Period {
    let side_by_side = plants.min(segments);
    let mut period = Period {
        plants: Vec::new(),
        segments: Vec::new(),
        lines: Vec::new(),
    };
    for own in 1..=segments {
        let next = next_segment(routes, own, segments, side_by_side, seeded);
        period.segments.push(segment_to(next, seeded));
    }
    for own in 1..=plants {
        let first_segment = first_segment(routes, own, segments, side_by_side, seeded);
        period.plants.push(Plant {
            exported: 0,
            first_segment,
            fraction: 0,
        });
    }
    period
}

/// A segment that leads to the next one, or a store if there is none.
fn segment_to(next: Option<usize>, seeded: &mut Seeded) -> Segment {
    let kind = match next {
        Some(_) => seeded.within(*Segment::KINDS.start()..=Segment::STORE - 1),
        None => Segment::STORE,
    };
    Segment {
        kind,
        outflow: 0,
        next: next.unwrap_or(0),
    }
}

/// The segment after this one, if it is no store.
fn next_segment(
    routes: Routes,
    own: usize,
    segments: usize,
    side_by_side: usize,
    seeded: &mut Seeded,
) -> Option<usize> {
    let next = match routes {
        Routes::Scattered if seeded.one_in(SEGMENTS_TO_A_STORE) => return None,
        Routes::ThroughAll => own + 1,
        Routes::Apart => own + side_by_side,
        Routes::Meeting | Routes::Scattered | Routes::FirstUnpassed => {
            let further = segments.saturating_sub(own + 1);
            own + 1 + seeded.up_to(further)
        }
    };
    (next <= segments).then_some(next)
}

/// The segment that a plant's route starts with.
fn first_segment(
    routes: Routes,
    own: usize,
    segments: usize,
    side_by_side: usize,
    seeded: &mut Seeded,
) -> usize {
    match routes {
        Routes::Meeting | Routes::Scattered => 1 + seeded.up_to(segments - 1),
        Routes::ThroughAll => 1,
        Routes::Apart => 1 + (own - 1) % side_by_side,
        Routes::FirstUnpassed => {
            let unpassed = segments / 2;
            unpassed + 1 + seeded.up_to(segments - unpassed - 1)
        }
    }
}
