//! Files that are accepted: seeded ones, full-size ones, and the smallest of many counts.

use crate::numbers::writing::write_numbers;
use crate::periods::account_limits::longest::longest_accepted;
use crate::periods::records::{Line, Plant, Segment};
use crate::periods::seeded::seeded_period;
use crate::periods::seeded::wishes::{Size, Wish, ACCEPTED};
use crate::periods::suites::whole_files::of_counts;
use crate::seeded::Seeded;

/// The seed of the seeded periods.
const SEED_OF_PERIODS: u64 = 0x5EED_000F;
/// The sizes in which each accepted wish is made.
const SIZES: [Size; 3] = [Size::Small, Size::Small, Size::Middle];
/// How many wishes are made in full size too.
const FULL_SIZE_WISHES: usize = 3;

/// All accepted files.
pub fn accepted_files() -> Vec<Vec<u8>> {
    [seeded_files(), full_size_files(), files_without_lines()].concat()
}

/// Each accepted wish in several sizes, and some of them full-size.
fn seeded_files() -> Vec<Vec<u8>> {
    let mut seeded = Seeded::new(SEED_OF_PERIODS);
    let mut files = Vec::new();
    for wish in ACCEPTED {
        files.extend(SIZES.map(|size| file_to(wish, size, &mut seeded)));
    }
    let full_size = ACCEPTED.into_iter().take(FULL_SIZE_WISHES);
    files.extend(full_size.map(|wish| file_to(wish, Size::Full, &mut seeded)));
    files
}

/// The file of a period to the wish, in this size.
fn file_to(wish: Wish, size: Size, seeded: &mut Seeded) -> Vec<u8> {
    let period = seeded_period(&Wish { size, ..wish }, seeded);
    write_numbers(&period.numbers())
}

/// As many records as there can be: in the fewest bytes, and in the most.
fn full_size_files() -> Vec<Vec<u8>> {
    let shortest = of_counts(
        *Plant::COUNT.end(),
        *Segment::COUNT.end(),
        *Line::COUNT.end(),
    );
    let longest = longest_accepted().numbers();
    [shortest, longest]
        .map(|numbers| write_numbers(&numbers))
        .to_vec()
}

/// The fewest and the most plants and segments, and one more than the fewest, without lines.
fn files_without_lines() -> Vec<Vec<u8>> {
    let mut files = Vec::new();
    for plants in [1, 2, *Plant::COUNT.end()] {
        for segments in [1, 2, *Segment::COUNT.end()] {
            files.push(write_numbers(&of_counts(plants, segments, 0)));
        }
    }
    files
}

#[cfg(test)]
mod tests {
    use super::*;
    use crate::periods::accounts::{account, Tables};
    use crate::periods::inspection::page::{inspect, End};

    #[test]
    fn files_are_accepted_and_walked_to_their_end() {
        for file in accepted_files() {
            let rows = account(&file, Tables::LARGE_ENOUGH);
            assert!(rows.is_ok(), "{rows:?}");
            let length = file.len() as u64;
            let page = inspect(&file);
            assert_eq!(page.refused, None);
            assert!(matches!(page.end, End::OfFile { byte, .. } if byte == length));
        }
    }

    #[test]
    fn full_size_files_have_as_many_numbers_as_there_can_be() {
        let full_size = |file: &&Vec<u8>| inspect(file).to_string().contains("\n2707 ");
        let files = accepted_files();
        assert_eq!(files.iter().filter(full_size).count(), 2 + FULL_SIZE_WISHES);
    }
}
