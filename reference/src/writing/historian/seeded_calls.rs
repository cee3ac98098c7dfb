//! Seeded calls: seeded lists with spare bytes or without, and buffers of every length.

use super::call::{bytes_of, WriteCall};
use crate::periods::historian::table_bytes::NUMBER_BYTES;
use crate::seeded::Seeded;
use crate::writing::form::Form;
use crate::writing::seeded_lists::seeded_lists;
use std::iter;

/// The seeds of the lists and of all else.
const SEED_OF_LISTS: u64 = 0x5EED_0015;
const SEED_OF_LENGTHS: u64 = 0x5EED_0016;
/// One list in this many has spare bytes.
const LISTS_TO_ONE_WITH: usize = 3;
/// The most bytes that a buffer is longer than needed.
const MOST_TOO_LONG: usize = 40;
/// One buffer in this many is too short for its list.
const BUFFERS_TO_A_SHORT_ONE: usize = 5;

/// `count` seeded calls.
pub fn seeded_calls(count: usize) -> Vec<WriteCall> {
    let mut seeded = Seeded::new(SEED_OF_LENGTHS);
    seeded_lists(Form::Period, SEED_OF_LISTS)
        .take(count)
        .map(|list| {
            let buffer = buffer_for(&list, &mut seeded);
            let spare = spare_bytes(&mut seeded);
            WriteCall::of(&list, buffer).with_spare(&spare)
        })
        .collect()
}

/// The length of a buffer: mostly enough, just or with room behind it.
fn buffer_for(list: &[u64], seeded: &mut Seeded) -> usize {
    let needed = bytes_of(list);
    if needed > 0 && seeded.one_in(BUFFERS_TO_A_SHORT_ONE) {
        let shorter = seeded.up_to(needed - 1);
        return seeded.pick(&[needed - 1, shorter]);
    }
    let longer = needed + seeded.up_to(MOST_TOO_LONG);
    seeded.pick(&[needed, longer])
}

/// Fewer bytes than a number has, mostly none.
fn spare_bytes(seeded: &mut Seeded) -> Vec<u8> {
    if !seeded.one_in(LISTS_TO_ONE_WITH) {
        return vec![];
    }
    let count = 1 + seeded.up_to(NUMBER_BYTES - 2);
    iter::repeat_with(|| seeded.byte()).take(count).collect()
}

#[cfg(test)]
mod tests {
    use super::*;
    use std::collections::BTreeSet;

    #[test]
    fn every_count_of_spare_bytes_is_met() {
        let calls = seeded_calls(500);
        let counts: BTreeSet<usize> = calls
            .iter()
            .map(|call| call.list.len() % NUMBER_BYTES)
            .collect();
        assert_eq!(counts, (0..NUMBER_BYTES).collect());
    }

    #[test]
    fn every_run_asks_the_same_calls() {
        assert_eq!(seeded_calls(100), seeded_calls(100));
    }
}
