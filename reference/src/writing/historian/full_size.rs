//! Lists of as many records as there can be: accepted, cut, at fault at their ends, and too long.

use super::call::WriteCall;
use super::room::lengths_around;
use crate::numbers::number::LIMIT;
use crate::numbers::writing::with_values;
use crate::periods::seeded::seeded_period;
use crate::periods::seeded::wishes::{Size, Wish};
use crate::periods::suites::whole_files::{longest, of_counts};
use crate::seeded::Seeded;

/// How many seeded lists there are, besides the longest and the shortest.
const SEEDED_LISTS: usize = 12;
/// The seed of these lists.
const SEED_OF_LISTS: u64 = 0x5EED_0014;
/// How many numbers before the end the lists are cut and put at fault.
const NUMBERS_NEAR_END: usize = 6;

/// All full-size lists, each as it is and changed near its end.
pub fn full_size() -> Vec<WriteCall> {
    let mut seeded = Seeded::new(SEED_OF_LISTS);
    let mut lists = vec![longest(), of_counts(16, 32, 512)];
    for _ in 0..SEEDED_LISTS {
        let wish = Wish::any_with_lines(Size::Full, &mut seeded);
        lists.push(seeded_period(&wish, &mut seeded).numbers());
    }
    lists.iter().flat_map(|list| around(list)).collect()
}

/// The list with buffers of all lengths, cut, followed by others, and at fault near its end.
fn around(numbers: &[u64]) -> Vec<WriteCall> {
    let mut calls = lengths_around(numbers);
    for place in numbers.len() - NUMBERS_NEAR_END..numbers.len() {
        calls.push(WriteCall::just_enough(&numbers[..place]));
        for value in [LIMIT, LIMIT + 1, u64::MAX] {
            let list = with_values(numbers, &[(place, value)]);
            calls.push(WriteCall::just_enough(&list));
        }
    }
    for after in [0, u64::MAX] {
        calls.push(WriteCall::just_enough(&[numbers, &[after]].concat()));
    }
    calls
}

#[cfg(test)]
mod tests {
    use super::*;
    use crate::compare::tally::Tally;

    #[test]
    fn full_size_lists_are_accepted_and_refused() {
        let tally = Tally::of(&full_size());
        let lists = SEEDED_LISTS + 2;
        assert!(tally.count("A") >= 4 * lists, "{tally}");
        assert_eq!(tally.count("R1"), NUMBERS_NEAR_END * lists, "{tally}");
        assert_eq!(tally.count("R3"), 2 * NUMBERS_NEAR_END * lists, "{tally}");
        assert!(tally.count("R8") >= 3 * lists, "{tally}");
        assert_eq!(tally.count("R9"), 2 * lists, "{tally}");
        assert_eq!(tally.count("R14"), 4 * lists, "{tally}");
    }
}
