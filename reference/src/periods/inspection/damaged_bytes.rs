//! The whole period of the paper with its bytes cut, changed, and followed by others.

use crate::file_bytes::{self, cuts_of};
use crate::numbers::number::{write_number, LIMIT, MORE_FOLLOW, MOST_GROUPS};
use crate::numbers::writing::write_numbers;
use crate::periods::paper::whole_period;
use crate::periods::suites::whole_files::SMALLEST;
use std::collections::BTreeSet;

/// Bytes that every byte is changed to: the edges of a last group and of others.
const EDGE_BYTES: [u8; 4] = [0x00, 0x7F, MORE_FOLLOW, u8::MAX];

/// Every cut of the whole period, from no byte to all of them.
pub fn every_cut() -> Vec<Vec<u8>> {
    let whole = whole_period();
    let mut files = cuts_of(&whole);
    files.push(whole);
    files
}

/// Each byte of the whole period changed to each value that matters.
pub fn each_byte_changed() -> Vec<Vec<u8>> {
    file_bytes::each_byte_changed(&whole_period(), |byte| {
        values_that_matter(byte).into_iter().collect()
    })
}

/// The edge bytes, the values next to a byte, and it with its top bit flipped; not itself.
fn values_that_matter(byte: u8) -> BTreeSet<u8> {
    let mut values = BTreeSet::from(EDGE_BYTES);
    values.extend([
        byte.wrapping_add(1),
        byte.wrapping_sub(1),
        byte ^ MORE_FOLLOW,
    ]);
    values.remove(&byte);
    values
}

/// The whole period followed by bytes.
pub fn bytes_after() -> Vec<Vec<u8>> {
    let whole = whole_period();
    tails()
        .iter()
        .map(|tail| [&whole[..], tail].concat())
        .collect()
}

/// What comes after the whole period: single bytes, one number and several, numbers at fault, and
/// other files.
fn tails() -> Vec<Vec<u8>> {
    let limit = write_number(LIMIT);
    let mut tails: Vec<Vec<u8>> = EDGE_BYTES.map(|byte| vec![byte]).to_vec();
    tails.extend((2..=limit.len()).map(|groups| limit[..groups].to_vec()));
    tails.extend([
        write_numbers(&[300]),
        write_numbers(&[0, 127, 128, 300, LIMIT]),
        write_numbers(&[LIMIT, 0, LIMIT + 1, 1]),
        write_numbers(&SMALLEST),
        whole_period(),
        vec![MORE_FOLLOW, 0],
        vec![0, MORE_FOLLOW],
        vec![MORE_FOLLOW; MOST_GROUPS],
        vec![u8::MAX; MOST_GROUPS + 1],
    ]);
    tails
}

#[cfg(test)]
mod tests {
    use super::*;
    use crate::periods::inspection::page::inspect;

    #[test]
    fn cuts_have_every_length() {
        let lengths: Vec<usize> = every_cut().iter().map(Vec::len).collect();
        assert_eq!(lengths, (0..=37).collect::<Vec<_>>());
    }

    #[test]
    fn every_byte_is_changed_and_stays_one() {
        let whole = whole_period();
        let mut changed_at = BTreeSet::new();
        for file in each_byte_changed() {
            assert_eq!(file.len(), whole.len());
            let places = (0..whole.len()).filter(|&place| file[place] != whole[place]);
            let places: Vec<usize> = places.collect();
            assert_eq!(places.len(), 1);
            changed_at.extend(places);
        }
        assert_eq!(changed_at.len(), whole.len());
    }

    #[test]
    fn values_that_matter_are_few() {
        let values: Vec<u8> = values_that_matter(0x25).into_iter().collect();
        assert_eq!(values, [0x00, 0x24, 0x26, 0x7F, 0x80, 0xA5, 0xFF]);
        let values: Vec<u8> = values_that_matter(0x00).into_iter().collect();
        assert_eq!(values, [0x01, 0x7F, 0x80, 0xFF]);
    }

    #[test]
    fn what_comes_after_is_walked_too() {
        for file in bytes_after() {
            let page = inspect(&file).to_string();
            assert!(page.contains("\n26 37 "), "{page}");
            assert!(page.contains(" after the last number"), "{page}");
            assert!(page.contains("\nR 9 26 37\n"), "{page}");
            assert_eq!(page.matches(" <--\n").count(), 1, "{page}");
        }
    }
}
