//! Seeded files of small and middle size, whole and damaged in one way or several.

use crate::file_bytes::with_hits;
use crate::numbers::number::{write_number, LIMIT};
use crate::numbers::writing::{write_numbers, write_with_form};
use crate::periods::seeded::damage::{damaged, Damage};
use crate::periods::seeded::seeded_period;
use crate::periods::seeded::wishes::{Size, Wish};
use crate::refusal::Reason;
use crate::seeded::Seeded;
use std::iter;

/// How many seeded files there are.
const SEEDED_FILES: usize = 30_000;
/// The seed of these files.
const SEED_OF_FILES: u64 = 0x5EED_0005;
/// One file in this many is of middle size, the others are small.
const FILES_TO_A_MIDDLE_ONE: usize = 8;
/// How many bytes are hit at most if there are several damages.
const MOST_HITS: usize = 4;

/// What becomes of a file.
#[derive(Clone, Copy)]
enum Fate {
    /// It stays whole.
    Whole,
    /// It gets one damage that is made for a refusal.
    Refused(Damage),
    /// One of its numbers becomes another one.
    NumberReplaced,
    /// One of its bytes is hit.
    OneHit,
    /// Several of its bytes are hit.
    SeveralHits,
}

/// All fates, each as likely as the others.
const FATES: [Fate; 15] = [
    Fate::Whole,
    Fate::Whole,
    Fate::Refused(Damage::CutShort),
    Fate::Refused(Damage::NotShortest),
    Fate::Refused(Damage::TooLarge),
    Fate::Refused(Damage::OutsideField(Reason::Counts)),
    Fate::Refused(Damage::OutsideField(Reason::PlantField)),
    Fate::Refused(Damage::OutsideField(Reason::SegmentField)),
    Fate::Refused(Damage::OutsideField(Reason::LineField)),
    Fate::Refused(Damage::BytesAfter),
    Fate::NumberReplaced,
    Fate::NumberReplaced,
    Fate::OneHit,
    Fate::OneHit,
    Fate::SeveralHits,
];

/// Seeded files, each with a seeded fate.
pub fn seeded_whole_and_damaged() -> Vec<Vec<u8>> {
    let mut seeded = Seeded::new(SEED_OF_FILES);
    iter::repeat_with(|| seeded_file(&mut seeded))
        .take(SEEDED_FILES)
        .collect()
}

/// One seeded file after its fate.
fn seeded_file(seeded: &mut Seeded) -> Vec<u8> {
    let size = if seeded.one_in(FILES_TO_A_MIDDLE_ONE) {
        Size::Middle
    } else {
        Size::Small
    };
    let fate = seeded.pick(&FATES);
    let wish = match fate {
        Fate::Refused(_) => Wish::any_with_lines(size, seeded),
        _ => Wish::any(size, seeded),
    };
    let period = seeded_period(&wish, seeded);
    let numbers = period.numbers();
    match fate {
        Fate::Whole => write_numbers(&numbers),
        Fate::Refused(damage) => damaged(&period, damage, seeded),
        Fate::NumberReplaced => {
            let place = seeded.up_to(numbers.len() - 1);
            let other = write_number(seeded.of_any_size(LIMIT));
            write_with_form(&numbers, place, &other)
        }
        Fate::OneHit => with_hits(write_numbers(&numbers), 1, seeded),
        Fate::SeveralHits => {
            let hits = 2 + seeded.up_to(MOST_HITS - 2);
            with_hits(write_numbers(&numbers), hits, seeded)
        }
    }
}
