//! What the tests here ask of a period.

use crate::numbers::writing::write_numbers;
use crate::periods::accounts::{account, Tables};
use crate::periods::records::Period;
use crate::periods::rows::Rows;
use crate::refusal::{Reason, Refused};

/// The answer to the period: `A`, or number and place of its refusal, whose offset is tested here.
pub fn answer(period: &Period) -> String {
    match accounted(period) {
        Ok(_) => "A".to_string(),
        Err(refused) => {
            assert_eq!(refused.offset, offset_of(&refused, period) as u64);
            format!("R {} {}", refused.reason as u8, refused.place)
        }
    }
}

/// The offset of a refusal by the accounts: all bytes before the line, else those of the file.
fn offset_of(refused: &Refused, period: &Period) -> usize {
    let numbers = period.numbers();
    let before = match refused.reason {
        Reason::GramTotal => &numbers[..period.place_of_line(refused.place)],
        _ => &numbers,
    };
    write_numbers(before).len()
}

/// The rows of the period, which must be accepted.
pub fn rows(period: &Period) -> Rows {
    accounted(period).expect("the period is accepted")
}

/// The accounts of the period's file.
fn accounted(period: &Period) -> Result<Rows, Refused> {
    account(&write_numbers(&period.numbers()), Tables::LARGE_ENOUGH)
}
