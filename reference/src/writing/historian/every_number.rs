//! Lists in which one number is missing, over the limit, or beside what its field allows: each
//! number of lists with all kinds of records in turn.

use super::call::WriteCall;
use crate::numbers::number::LIMIT;
use crate::numbers::writing::with_values;
use crate::periods::fields::fields_of;
use crate::periods::suites::whole_files::small_and_middle;
use std::collections::BTreeSet;

/// Values over the limit: next to it, and where groups and numbers of fewer bits end.
const OVER_THE_LIMIT: [u64; 8] = [
    LIMIT + 1,
    (1 << 32) - 1,
    1 << 32,
    (1 << 35) - 1,
    1 << 35,
    1 << 63,
    u64::MAX - 1,
    u64::MAX,
];
/// Values that many fields are tested against.
const VALUES_FOR_ANY_FIELD: [u64; 14] = [
    0,
    1,
    2,
    9,
    10,
    127,
    128,
    999,
    1000,
    1001,
    65_537,
    1_000_000_000,
    1_000_000_001,
    LIMIT,
];
/// How many low bits of a number would be looked at if it were cut to a narrower one.
const NARROW_BITS: [u32; 4] = [8, 16, 31, 32];

/// Every cut of the lists, and every value at every number, each with room and without.
pub fn refused_at_every_number() -> Vec<WriteCall> {
    let mut calls = Vec::new();
    for numbers in small_and_middle() {
        for place in 0..numbers.len() {
            calls.extend(WriteCall::with_room_and_without(&numbers[..place]));
            for value in values_for(numbers, place) {
                let list = with_values(numbers, &[(place, value)]);
                calls.extend(WriteCall::with_room_and_without(&list));
            }
        }
    }
    calls
}

/// Values beside the bounds of the field at this place, over the limit, and such that only their
/// low bits are those of the number.
fn values_for(numbers: &[u64], place: usize) -> BTreeSet<u64> {
    let allowed = &fields_of(numbers)[place].allowed;
    let mut values = BTreeSet::from(OVER_THE_LIMIT);
    values.extend(VALUES_FOR_ANY_FIELD);
    for bound in [*allowed.start(), *allowed.end()] {
        values.extend(bound.saturating_sub(1)..=bound + 1);
    }
    values.extend(NARROW_BITS.map(|bits| numbers[place] + (1 << bits)));
    values
}

/// The first number at fault with each later one at fault too: the first is answered.
pub fn two_faults() -> Vec<WriteCall> {
    let mut calls = Vec::new();
    for numbers in small_and_middle() {
        for place in 1..numbers.len() {
            for (first, second) in [(u64::MAX, 0), (LIMIT + 1, u64::MAX), (LIMIT, u64::MAX)] {
                let list = with_values(numbers, &[(place - 1, first), (place, second)]);
                calls.extend(WriteCall::with_room_and_without(&list));
            }
        }
    }
    calls
}

#[cfg(test)]
mod tests {
    use super::*;
    use crate::periods::suites::whole_files::EVERY_CLASS;
    use crate::writing::form::Form;
    use crate::writing::list::write_list;
    use std::collections::BTreeSet;

    /// Where the lists of this length are refused for this reason.
    fn places_of(refusal: u8, length: usize) -> BTreeSet<usize> {
        let calls = refused_at_every_number();
        let lists = calls.iter().map(WriteCall::numbers);
        let refused = lists
            .filter(|numbers| numbers.len() == length)
            .filter_map(|numbers| write_list(&numbers, Form::Period).err());
        refused
            .filter(|placed| placed.reason as u8 == refusal)
            .map(|placed| placed.place)
            .collect()
    }

    #[test]
    fn every_number_is_over_the_limit_and_every_field_beside_its_bounds() {
        let all: BTreeSet<usize> = (0..EVERY_CLASS.len()).collect();
        assert_eq!(places_of(3, EVERY_CLASS.len()), all);
        let fields = fields_of(&EVERY_CLASS);
        for reason in 4..=8 {
            let of_reason = all.iter().copied().filter(|&place| {
                let field = &fields[place];
                field.reason as u8 == reason && *field.allowed.end() < LIMIT
            });
            let missed: Vec<usize> = of_reason
                .filter(|place| !places_of(reason, EVERY_CLASS.len()).contains(place))
                .collect();
            assert_eq!(missed, [], "reason {reason}");
        }
    }
}
