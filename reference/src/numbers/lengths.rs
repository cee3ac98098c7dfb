//! Numbers of chosen lengths. Behind numbers of several bytes a place does not tell the byte.

use super::number::{write_number, GROUP_BITS};

/// How many groups numbers have, by turns.
pub type Lengths = &'static [usize];

/// Each length there is for all numbers, the shortest and the longest by turns, and all in a row.
pub const EACH_LENGTHS: [Lengths; 8] = [
    &[1],
    &[2],
    &[3],
    &[4],
    &[5],
    &[1, 5],
    &[5, 1],
    &[1, 2, 3, 4, 5],
];

/// Gives numbers of these lengths by turns; one is shorter if the largest it may be is.
pub fn numbers_by_turns(lengths: Lengths) -> impl FnMut(u64) -> u64 {
    let mut turns = lengths.iter().cycle();
    move |largest| {
        let groups = *turns.next().expect("there is a length");
        smallest_of(groups.min(write_number(largest).len()))
    }
}

/// The smallest number of so many groups, but not 0.
fn smallest_of(groups: usize) -> u64 {
    1 << (GROUP_BITS * (groups - 1))
}

#[cfg(test)]
mod tests {
    use super::*;
    use crate::numbers::number::{LIMIT, MOST_GROUPS};

    #[test]
    fn each_length_is_there_alone() {
        for groups in 1..=MOST_GROUPS {
            assert!(EACH_LENGTHS.contains(&&[groups][..]));
        }
    }

    #[test]
    fn numbers_have_the_lengths_by_turns() {
        let mut number = numbers_by_turns(&[1, 2, 3, 4, 5]);
        let lengths = [(); 7].map(|()| write_number(number(LIMIT)).len());
        assert_eq!(lengths, [1, 2, 3, 4, 5, 1, 2]);
    }

    #[test]
    fn number_is_no_larger_than_it_may_be() {
        let mut number = numbers_by_turns(&[5, 1]);
        assert_eq!(number(1_000_000), 16_384);
        assert_eq!(number(1_000_000), 1);
        assert_eq!(number(127), 1);
    }
}
