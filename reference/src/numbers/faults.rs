//! Forms of numbers that must be refused, and numbers that a field may not be.

use super::number::{padded, write_number, GROUP_BITS, LIMIT, MORE_FOLLOW, MOST_GROUPS};
use super::writing::{write_numbers, write_with_form};
use crate::seeded::Seeded;
use std::iter;
use std::ops::RangeInclusive;

/// The largest value that the most groups can hold.
pub const LARGEST_OF_MOST_GROUPS: u64 = (1 << (GROUP_BITS * MOST_GROUPS)) - 1;

/// Forms with which the file ends: cut short, or with as many groups as may be and another to
/// follow.
fn forms_that_end() -> Vec<Vec<u8>> {
    let limit = write_number(LIMIT);
    let cut = (1..limit.len()).map(|groups| limit[..groups].to_vec());
    cut.chain([vec![MORE_FOLLOW; MOST_GROUPS]]).collect()
}

/// Forms of a number, and of others, that are not in shortest form or too large.
fn forms_at_fault(value: u64) -> Vec<Vec<u8>> {
    let own = write_number(value);
    let mut forms: Vec<Vec<u8>> = (own.len() + 1..=MOST_GROUPS + 1)
        .map(|groups| padded(&own, groups))
        .collect();
    forms.extend((2..=MOST_GROUPS).map(|groups| padded(&[0], groups)));
    forms.push(vec![u8::MAX; MOST_GROUPS]);
    forms.push(write_number(LIMIT + 1));
    forms
}

/// Files of these numbers that end before the one at the place or inside it, or in which it has
/// each form that must be refused.
pub fn every_fault_at(numbers: &[u64], place: usize) -> Vec<Vec<u8>> {
    let before = write_numbers(&numbers[..place]);
    let mut files = vec![before.clone()];
    for form in forms_that_end() {
        files.push([&before[..], &form].concat());
    }
    for form in forms_at_fault(numbers[place]) {
        files.push(write_with_form(numbers, place, &form));
    }
    files
}

/// Several groups, the last of them zero.
pub fn not_shortest(seeded: &mut Seeded) -> Vec<u8> {
    let more = 1 + seeded.up_to(MOST_GROUPS - 2);
    let mut form = groups_before_another(more, seeded);
    form.push(0);
    form
}

/// As many groups as there may be and another one to follow, or a value above the limit.
pub fn too_large(seeded: &mut Seeded) -> Vec<u8> {
    if seeded.one_in(2) {
        return groups_before_another(MOST_GROUPS, seeded);
    }
    let far_above = seeded.within(LIMIT + 1..=LARGEST_OF_MOST_GROUPS);
    write_number(seeded.pick(&[LIMIT + 1, far_above]))
}

/// Groups that each say that another one follows.
fn groups_before_another(count: usize, seeded: &mut Seeded) -> Vec<u8> {
    iter::repeat_with(|| seeded.byte() | MORE_FOLLOW)
        .take(count)
        .collect()
}

/// A number that is not of the range: next to it, 0, or far above.
pub fn outside(allowed: &RangeInclusive<u64>, seeded: &mut Seeded) -> u64 {
    let above = allowed.end() + 1;
    let mut choices = vec![above, seeded.within(above..=LIMIT)];
    if *allowed.start() > 0 {
        choices.extend([allowed.start() - 1, 0]);
    }
    seeded.pick(&choices)
}

/// Files of these numbers with one fault at each place, and the refusal that is due: the file ends
/// before the number or inside it, the number is not in shortest form, or it is too large.
#[cfg(test)]
pub fn one_fault_at_each_place(numbers: &[u64]) -> Vec<(Vec<u8>, String)> {
    let mut files = Vec::new();
    for (place, &value) in numbers.iter().enumerate() {
        let before = write_numbers(&numbers[..place]);
        let due = |number| format!("R {number} {place} {}", before.len());
        files.push((before.clone(), due(1)));
        files.push(([&before[..], &[MORE_FOLLOW]].concat(), due(1)));
        let own = write_number(value);
        if own.len() < MOST_GROUPS {
            let longer = padded(&own, own.len() + 1);
            files.push((write_with_form(numbers, place, &longer), due(2)));
        }
        for form in [vec![MORE_FOLLOW; MOST_GROUPS], write_number(LIMIT + 1)] {
            files.push((write_with_form(numbers, place, &form), due(3)));
        }
    }
    files
}

#[cfg(test)]
mod tests {
    use super::*;
    use crate::numbers::number::{read_number, Reading, Refusal};

    fn refusal_of(form: &[u8]) -> Option<Refusal> {
        match read_number(form, 0) {
            Reading::Refused { refusal, .. } => Some(refusal),
            Reading::Number { .. } => None,
        }
    }

    #[test]
    fn forms_are_refused_whatever_the_number() {
        for value in [0, 1, 127, 128, 300, LIMIT] {
            for form in forms_at_fault(value) {
                let refusal = refusal_of(&form);
                let expected = [Some(Refusal::NotShortest), Some(Refusal::TooLarge)];
                assert!(expected.contains(&refusal), "{form:02X?}");
            }
        }
        for form in forms_that_end() {
            let expected = if form.len() < MOST_GROUPS {
                Refusal::FileEnds
            } else {
                Refusal::TooLarge
            };
            assert_eq!(refusal_of(&form), Some(expected), "{form:02X?}");
        }
    }

    #[test]
    fn seeded_forms_are_refused_for_their_reason() {
        let mut seeded = Seeded::new(1);
        for _ in 0..200 {
            let form = not_shortest(&mut seeded);
            assert_eq!(refusal_of(&form), Some(Refusal::NotShortest));
            let form = too_large(&mut seeded);
            assert_eq!(refusal_of(&form), Some(Refusal::TooLarge));
        }
    }

    #[test]
    fn numbers_outside_are_on_each_side_of_the_range() {
        let mut seeded = Seeded::new(1);
        let drawn: Vec<u64> = (0..200).map(|_| outside(&(5..=9), &mut seeded)).collect();
        for wanted in [0, 4, 10] {
            assert!(drawn.contains(&wanted), "{wanted}");
        }
        assert!(drawn.iter().any(|&number| number > 1000));
        assert!(!drawn.iter().any(|number| (5..=9).contains(number)));
    }
}
