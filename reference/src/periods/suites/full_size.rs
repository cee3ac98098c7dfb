//! Files of as many records as there can be: whole, cut, damaged, and followed by bytes.

use super::whole_files::longest;
use crate::numbers::writing::write_numbers;
use crate::periods::records::Period;
use crate::periods::seeded::damage::{damaged, Damage};
use crate::periods::seeded::seeded_period;
use crate::periods::seeded::wishes::{Size, Wish};
use crate::refusal::Reason;
use crate::seeded::Seeded;

/// How many seeded full-size periods there are, besides the longest.
const SEEDED_PERIODS: usize = 60;
/// The seed of these periods.
const SEED_OF_PERIODS: u64 = 0x5EED_0004;
/// How often each damage is done to each period, at another place each time.
const TIMES_EACH: usize = 3;
/// How many bytes before the end the longest file is cut one by one.
const CUTS_NEAR_END: usize = 30;

/// What is done to each of the periods.
const DAMAGES: [Damage; 8] = [
    Damage::CutShort,
    Damage::CutShort,
    Damage::NotShortest,
    Damage::TooLarge,
    Damage::OutsideField(Reason::PlantField),
    Damage::OutsideField(Reason::SegmentField),
    Damage::OutsideField(Reason::LineField),
    Damage::BytesAfter,
];

/// The longest file and seeded ones of as many records, whole and damaged.
pub fn full_size() -> Vec<Vec<u8>> {
    let mut seeded = Seeded::new(SEED_OF_PERIODS);
    let longest = Period::from_numbers(&longest());
    let mut files = whole_and_damaged(&longest, &mut seeded);
    files.extend(cuts_near_end(&files[0]));
    for _ in 0..SEEDED_PERIODS {
        let wish = Wish::any_with_lines(Size::Full, &mut seeded);
        let period = seeded_period(&wish, &mut seeded);
        files.extend(whole_and_damaged(&period, &mut seeded));
    }
    files
}

/// The file without its last byte, without its last two, and so on.
fn cuts_near_end(whole: &[u8]) -> Vec<Vec<u8>> {
    let lengths = whole.len() - CUTS_NEAR_END..whole.len();
    lengths.map(|length| whole[..length].to_vec()).collect()
}

/// The whole file first, then the file with each damage.
fn whole_and_damaged(period: &Period, seeded: &mut Seeded) -> Vec<Vec<u8>> {
    let mut files = vec![write_numbers(&period.numbers())];
    for damage in DAMAGES {
        for _ in 0..TIMES_EACH {
            files.push(damaged(period, damage, seeded));
        }
    }
    files
}
