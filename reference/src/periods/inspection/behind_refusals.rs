//! Periods that reading refuses at one number, and in which a later one has a fault: the page marks
//! the first and shows the bytes of the second.

use crate::numbers::faults::LARGEST_OF_MOST_GROUPS;
use crate::numbers::number::{padded, write_number, LIMIT, MORE_FOLLOW, MOST_GROUPS};
use crate::numbers::writing::{with_values, write_numbers, write_with_form};
use crate::periods::fields::fields_of;
use crate::periods::lengths::period_of;
use crate::periods::records::ANY_NUMBER;

/// Each number that its field can refuse, with a fault in the next one, and with an end inside the
/// last one.
pub fn faults_behind_each_field() -> Vec<Vec<u8>> {
    let numbers = period_with_all_lengths();
    let mut files = Vec::new();
    for (turn, place) in places_before_last(&numbers).into_iter().enumerate() {
        let refused = past_its_field(&numbers, place);
        files.push(fault_in_next(&refused, place, turn));
        files.push(end_inside_last(&refused, turn));
    }
    files
}

/// The numbers of a period that has short and long ones by turns.
fn period_with_all_lengths() -> Vec<u64> {
    period_of(&[1, 2, 3, 4, 5], 3).numbers()
}

/// The places of all numbers but the last whose fields may not be any number.
fn places_before_last(numbers: &[u64]) -> Vec<usize> {
    let fields = fields_of(numbers);
    (0..numbers.len() - 1)
        .filter(|&place| fields[place].allowed != ANY_NUMBER)
        .collect()
}

/// The numbers with the one at the place just past what its field may be.
fn past_its_field(numbers: &[u64], place: usize) -> Vec<u64> {
    let largest = *fields_of(numbers)[place].allowed.end();
    with_values(numbers, &[(place, largest + 1)])
}

/// The number behind the place has a fault 2 or 3, of every form by turns, and the others follow.
fn fault_in_next(numbers: &[u64], place: usize, turn: usize) -> Vec<u8> {
    let forms = forms_at_fault();
    write_with_form(numbers, place + 1, &forms[turn % forms.len()])
}

/// A zero with every count of groups it may not have, numbers that go on after the fifth group,
/// and numbers over the limit.
fn forms_at_fault() -> Vec<Vec<u8>> {
    let mut forms: Vec<Vec<u8>> = (2..=MOST_GROUPS)
        .map(|groups| padded(&[0], groups))
        .collect();
    forms.extend([
        vec![MORE_FOLLOW; MOST_GROUPS],
        vec![u8::MAX; MOST_GROUPS],
        write_number(LIMIT + 1),
        write_number(LARGEST_OF_MOST_GROUPS),
    ]);
    forms
}

/// The file ends inside its last number, after every count of groups by turns.
fn end_inside_last(numbers: &[u64], turn: usize) -> Vec<u8> {
    let before = write_numbers(&numbers[..numbers.len() - 1]);
    let groups = 1 + turn % (MOST_GROUPS - 1);
    [&before[..], &write_number(LIMIT)[..groups]].concat()
}

#[cfg(test)]
mod tests {
    use super::*;
    use crate::periods::inspection::page::inspect;

    #[test]
    fn refusal_comes_before_the_fault() {
        let numbers = period_with_all_lengths();
        let places = places_before_last(&numbers);
        assert_eq!(places.len(), 25);
        let files = faults_behind_each_field();
        assert_eq!(files.len(), 2 * places.len());
        for (files, place) in files.chunks(2).zip(places) {
            let offset = write_numbers(&numbers[..place]).len();
            let reason = fields_of(&numbers)[place].reason as u8;
            let refusal = format!("\nR {reason} {place} {offset}\nF ");
            for file in files {
                assert!(inspect(file).to_string().contains(&refusal));
            }
            let next = format!(" {}\n", place + 1);
            assert!(inspect(&files[0]).to_string().ends_with(&next));
            assert!(inspect(&files[1]).to_string().ends_with("\nF 1 33\n"));
        }
    }

    #[test]
    fn both_lines_are_there() {
        // The second segment leads past the last. Before its next segment are a header of 4 bytes,
        // plants of 4 and 7, and 7 bytes of segments.
        let numbers = period_with_all_lengths();
        let refused = past_its_field(&numbers, 15);
        let page = inspect(&fault_in_next(&refused, 15, 3)).to_string();
        assert!(page.contains("\n15 22 4 segment 2 next segment <--\n"));
        assert!(page.ends_with("\n16 23 - segment 3 kind: 80 80 80 80 00\nR 7 15 22\nF 2 16\n"));
        let page = inspect(&end_inside_last(&refused, 2)).to_string();
        assert!(page.contains("\n15 22 4 segment 2 next segment <--\n"));
        assert!(page.ends_with(" - line 3 factor: 80 D0 AC\nR 7 15 22\nF 1 33\n"));
    }
}
