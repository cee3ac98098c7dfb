//! The whole period with each fault that a number can have, at every place, and behind a number
//! for which reading refuses the file.

use super::refused_fields::with_field_not_allowed;
use crate::numbers::faults::LARGEST_OF_MOST_GROUPS;
use crate::numbers::number::{padded, write_number, LIMIT, MORE_FOLLOW, MOST_GROUPS};
use crate::numbers::writing::{write_numbers, write_with_form};
use crate::periods::paper::WHOLE_PERIOD;

/// Numbers after the last one, so that the faults come there too.
const NUMBERS_AFTER: [u64; 2] = [300, 5];
/// The place of a fault behind a number that is refused: one of the last line's.
const PLACE_BEHIND: usize = 24;

/// All files about faults.
pub fn faults() -> Vec<Vec<u8>> {
    [every_fault_at_every_place(), faults_behind_refused_fields()].concat()
}

/// Each fault at every place of the whole period, and at the places after its last number.
fn every_fault_at_every_place() -> Vec<Vec<u8>> {
    let numbers = [&WHOLE_PERIOD[..], &NUMBERS_AFTER].concat();
    let mut files = Vec::new();
    for place in 0..numbers.len() {
        let before = write_numbers(&numbers[..place]);
        files.extend(forms_that_end().map(|form| [&before[..], &form].concat()));
        let at_fault = forms_at_fault(numbers[place]);
        files.extend(at_fault.map(|form| write_with_form(&numbers, place, &form)));
    }
    files
}

/// Forms inside which the file ends, after one group and after all but one; and five groups that
/// say more follow, after which nothing does.
fn forms_that_end() -> [Vec<u8>; 3] {
    [
        vec![MORE_FOLLOW],
        vec![u8::MAX; MOST_GROUPS - 1],
        vec![u8::MAX; MOST_GROUPS],
    ]
}

/// Forms that are not the shortest, of the value itself and of as many groups as may be; that go
/// on after the fifth group; and whose value is over the limit, by one and as far as can be.
fn forms_at_fault(value: u64) -> [Vec<u8>; 5] {
    let own = write_number(value);
    [
        padded(&own, own.len() + 1),
        padded(&[0], MOST_GROUPS),
        vec![MORE_FOLLOW; MOST_GROUPS],
        write_number(LIMIT + 1),
        write_number(LARGEST_OF_MOST_GROUPS),
    ]
}

/// Each fault near the end of periods that are refused for a field before it.
fn faults_behind_refused_fields() -> Vec<Vec<u8>> {
    let forms = [
        vec![MORE_FOLLOW],
        padded(&[0], MOST_GROUPS),
        vec![MORE_FOLLOW; MOST_GROUPS],
    ];
    let mut files = Vec::new();
    for numbers in with_field_not_allowed() {
        let before = write_numbers(&numbers[..PLACE_BEHIND]);
        files.extend(forms.iter().map(|form| [&before[..], form].concat()));
    }
    files
}

#[cfg(test)]
mod tests {
    use super::*;
    use crate::periods::inspection::page::pages_checked::closing;

    /// How the page must close for this fault at this place.
    fn closing_for(fault: u8, place: usize) -> String {
        if place < WHOLE_PERIOD.len() {
            let byte = write_numbers(&WHOLE_PERIOD[..place]).len();
            format!("R {fault} {place} {byte}, F {fault} {place}")
        } else {
            format!("R 9 26 37, F {fault} {place}")
        }
    }

    #[test]
    fn each_fault_comes_at_every_place() {
        let files = every_fault_at_every_place();
        let closings: Vec<String> = files.iter().map(|file| closing(file)).collect();
        let places = WHOLE_PERIOD.len() + NUMBERS_AFTER.len();
        assert_eq!(closings.len(), places * 8);
        for place in 0..places {
            for (fault, times) in [(1, 2), (2, 2), (3, 4)] {
                let expected = closing_for(fault, place);
                let met = closings.iter().filter(|closing| **closing == expected);
                assert_eq!(met.count(), times, "{expected}");
            }
        }
    }

    #[test]
    fn each_fault_comes_behind_each_refused_field() {
        let mut expected = Vec::new();
        for refusal in ["R 5 1 1", "R 6 5 6", "R 7 10 16", "R 8 17 25"] {
            expected.extend([1, 2, 3].map(|fault| format!("{refusal}, F {fault} 24")));
        }
        let files = faults_behind_refused_fields();
        let closings: Vec<String> = files.iter().map(|file| closing(file)).collect();
        assert_eq!(closings, expected);
    }
}
