//! Sheets whose bytes are cut, changed, at fault, or followed by others.

use super::years::{changing_largest_year, largest_year, mixed_year};
use crate::file_bytes::{self, cuts_of, each_byte_changed, tails_of_bytes, with_byte};
use crate::numbers::faults::every_fault_at;
use crate::numbers::number::{MORE_FOLLOW, MOST_GROUPS};
use crate::sheets::sheet::{sheet_of, Sheet};

/// A sheet of one day, and one of some days with readings of every length.
const ONE_DAY: [u64; 1] = [7];
const SOME_DAYS: [u64; 8] = [0, 0, 127, 128, 128, 300_000, 4_000_000_000, 70_000_000];

/// Every cut of the mixed year, from no byte to all but one.
pub fn cuts_of_a_year() -> Vec<Vec<u8>> {
    cuts_of(&sheet_of(&mixed_year()))
}

/// The mixed year with one bit of each byte flipped, another one from byte to byte.
pub fn year_with_a_bit_flipped() -> Vec<Vec<u8>> {
    let year = sheet_of(&mixed_year());
    let flipped = |place: usize| year[place] ^ (1 << (place % u8::BITS as usize));
    (0..year.len())
        .map(|place| with_byte(&year, place, flipped(place)))
        .collect()
}

/// The mixed year with each byte changed to each of the values that are chosen for it.
pub fn year_changed(values_for: fn(u8) -> Vec<u8>) -> Vec<Vec<u8>> {
    each_byte_changed(&sheet_of(&mixed_year()), values_for)
}

/// Every cut of the longest sheets there can be.
pub fn cuts_of_the_longest() -> Vec<Vec<u8>> {
    let longest = [largest_year(), changing_largest_year()];
    longest
        .iter()
        .flat_map(|readings| cuts_of(&sheet_of(readings)))
        .collect()
}

/// The longest sheet with each byte changed to each of the values that are chosen for it.
pub fn longest_changed(values_for: fn(u8) -> Vec<u8>) -> Vec<Vec<u8>> {
    each_byte_changed(&sheet_of(&changing_largest_year()), values_for)
}

/// Every fault of a number: at the count, and at the first, a middle and the last reading of the
/// mixed year.
pub fn faults_in_a_year() -> Vec<Vec<u8>> {
    let readings = mixed_year();
    let places = [0, 1, readings.len() / 2, readings.len()];
    let numbers = Sheet { readings }.numbers();
    let at = |place| every_fault_at(&numbers, place);
    places.into_iter().flat_map(at).collect()
}

/// Every fault of a number, at every number of small sheets and of the longest one.
pub fn faults_everywhere() -> Vec<Vec<u8>> {
    let mut files = Vec::new();
    for readings in [ONE_DAY.to_vec(), SOME_DAYS.to_vec(), largest_year()] {
        let numbers = Sheet { readings }.numbers();
        let at = |place| every_fault_at(&numbers, place);
        files.extend((0..numbers.len()).flat_map(at));
    }
    files
}

/// Bytes that come after a sheet if there are few files: a number each, or none.
const BYTES_AFTER: [u8; 6] = [0x00, 0x01, 0x7F, MORE_FOLLOW, 0x81, u8::MAX];

/// A sheet of one day and the mixed year, followed by one byte, by a number at fault, and by
/// another sheet.
pub fn some_bytes_after() -> Vec<Vec<u8>> {
    let mut tails: Vec<Vec<u8>> = BYTES_AFTER.map(|byte| vec![byte]).to_vec();
    tails.extend([
        vec![MORE_FOLLOW, 0],
        vec![MORE_FOLLOW; MOST_GROUPS],
        sheet_of(&ONE_DAY),
    ]);
    followed_by(&[sheet_of(&ONE_DAY), sheet_of(&mixed_year())], &tails)
}

/// Sheets of every length followed by each byte, by runs of bytes and by each other.
pub fn bytes_after() -> Vec<Vec<u8>> {
    let sheets = [
        sheet_of(&ONE_DAY),
        sheet_of(&SOME_DAYS),
        sheet_of(&mixed_year()),
        sheet_of(&largest_year()),
    ];
    let mut tails = tails_of_bytes();
    tails.extend(sheets.clone());
    followed_by(&sheets, &tails)
}

/// Each sheet with each of the tails.
fn followed_by(sheets: &[Vec<u8>], tails: &[Vec<u8>]) -> Vec<Vec<u8>> {
    let mut files = Vec::new();
    for sheet in sheets {
        files.extend(tails.iter().map(|tail| [&sheet[..], tail].concat()));
    }
    files
}

/// The seed of the noise.
const SEED_OF_NOISE: u64 = 0x5EED_0011;

/// Seeded noise of every length, some of it after the start of a sheet.
pub fn noise() -> Vec<Vec<u8>> {
    let starts = [&ONE_DAY[..], &SOME_DAYS, &mixed_year()].map(sheet_of);
    file_bytes::noise(&starts, SEED_OF_NOISE)
}

#[cfg(test)]
mod tests {
    use super::*;
    use crate::sheets::figures::{figures_of, printed};

    fn printed_for(file: &[u8]) -> String {
        printed(&figures_of(file))
    }

    #[test]
    fn cut_year_ends_at_the_reading_that_is_missing() {
        let cuts = cuts_of_a_year();
        assert_eq!(cuts.len(), 368);
        for (length, cut) in cuts.iter().enumerate() {
            // The count has two bytes, and each reading has one.
            let (place, offset) = match length {
                0 | 1 => (0, 0),
                _ => (length - 1, length),
            };
            let expected = format!("R 1 {place} {offset}\n");
            assert_eq!(printed_for(cut), expected, "{length}");
        }
    }

    #[test]
    fn each_byte_of_a_year_is_changed_once() {
        let year = sheet_of(&mixed_year());
        let changed = year_with_a_bit_flipped();
        assert_eq!(changed.len(), year.len());
        for (place, file) in changed.iter().enumerate() {
            let differs = |&at: &usize| file[at] != year[at];
            let places: Vec<usize> = (0..year.len()).filter(differs).collect();
            assert_eq!(places, [place]);
        }
    }

    #[test]
    fn faults_are_refused_at_their_number() {
        let numbers = 1 + mixed_year().len();
        for file in faults_in_a_year() {
            let refused = figures_of(&file).expect_err("the fault is refused");
            assert!([1, 2, 3].contains(&(refused.reason as u8)));
            assert!([0, 1, 183, numbers - 1].contains(&refused.place));
            let bytes_of_count = if refused.place > 0 { 2 } else { 0 };
            let readings_before = refused.place.saturating_sub(1) as u64;
            assert_eq!(refused.offset, bytes_of_count + readings_before);
        }
    }

    #[test]
    fn what_follows_a_sheet_is_refused_whatever_it_is() {
        let refused = |files: Vec<Vec<u8>>, line: &str| {
            let printed = files.iter().map(|file| printed_for(file));
            printed.filter(|came| came == line).count()
        };
        assert_eq!(refused(some_bytes_after(), "R 9 2 2\n"), 9);
        assert_eq!(refused(some_bytes_after(), "R 9 367 368\n"), 9);
        assert_eq!(some_bytes_after().len(), 18);
        let tails = 256 + 5 * 4 + 4;
        assert_eq!(refused(bytes_after(), "R 9 2 2\n"), tails);
        assert_eq!(refused(bytes_after(), "R 9 9 20\n"), tails);
        assert_eq!(refused(bytes_after(), "R 9 367 368\n"), tails);
        assert_eq!(refused(bytes_after(), "R 9 367 1832\n"), tails);
        assert_eq!(bytes_after().len(), 4 * tails);
    }
}
