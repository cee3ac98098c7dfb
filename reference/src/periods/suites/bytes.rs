//! Files whose bytes are cut, changed, followed by others, or noise from the start.

use super::whole_files::{longest, small_and_middle, LARGE_VALUES, SMALLEST};
use crate::file_bytes::{self, cuts_of, every_value, tails_of_bytes, telling_values};
use crate::numbers::writing::write_numbers;
use crate::periods::captured::all_captured;
use crate::periods::paper::{whole_period, WHOLE_PERIOD};

/// Every cut of small and middle-size whole files.
pub fn every_cut() -> Vec<Vec<u8>> {
    let mut files = Vec::new();
    for numbers in small_and_middle() {
        files.extend(cuts_of(&write_numbers(numbers)));
    }
    files
}

/// Each byte of small whole files changed to each of the 256 values, and of one with captured CO2
/// to some.
pub fn each_byte_changed() -> Vec<Vec<u8>> {
    let mut files = Vec::new();
    for numbers in [&WHOLE_PERIOD[..], &LARGE_VALUES] {
        let whole = write_numbers(numbers);
        files.extend(file_bytes::each_byte_changed(&whole, every_value));
    }
    let changed = file_bytes::each_byte_changed(&all_captured(), telling_values);
    files.extend(changed);
    files
}

/// Whole files followed by bytes, also by themselves.
pub fn bytes_after() -> Vec<Vec<u8>> {
    let tails = tails();
    let mut files = Vec::new();
    for numbers in small_and_middle() {
        let whole = write_numbers(numbers);
        files.extend(tails.iter().map(|tail| [&whole[..], tail].concat()));
        files.push([&whole[..], &whole].concat());
    }
    let longest = write_numbers(&longest());
    files.push([&longest[..], &longest].concat());
    files
}

/// What may come after a whole file: bytes, or another file.
pub fn tails() -> Vec<Vec<u8>> {
    let mut tails = tails_of_bytes();
    tails.push(whole_period());
    tails.push(write_numbers(&SMALLEST));
    tails
}

/// The seed of the noise.
const SEED_OF_NOISE: u64 = 0x5EED_0003;

/// Seeded noise of every length, some of it after the start of a file.
pub fn noise() -> Vec<Vec<u8>> {
    file_bytes::noise(&small_and_middle().map(write_numbers), SEED_OF_NOISE)
}
