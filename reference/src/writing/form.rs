//! What a list of numbers is written as: which field each of its numbers is, and what it may be.

use crate::periods::fields::{self, Field};
use crate::periods::records::ANY_NUMBER;
use crate::refusal::Reason;
use crate::sheets::sheet::Sheet;

/// The two files that lists are written as.
#[derive(Clone, Copy, Debug, PartialEq, Eq)]
pub enum Form {
    Period,
    Sheet,
}

impl Form {
    /// The field of the number after these, which are the first of a list and allowed themselves;
    /// nothing if they are all that the file has.
    pub fn field_after(self, numbers: &[u64]) -> Option<Field> {
        match self {
            Form::Period => fields::field_after(numbers),
            Form::Sheet => field_of_sheet(numbers),
        }
    }
}

/// A sheet has its count of days, then a reading for each of them.
fn field_of_sheet(numbers: &[u64]) -> Option<Field> {
    match *numbers {
        [] => Some(Field {
            allowed: Sheet::DAYS,
            reason: Reason::Counts,
        }),
        [days, ref readings @ ..] => ((readings.len() as u64) < days).then_some(Field {
            allowed: ANY_NUMBER,
            // No number is outside what a reading may be without being over the limit.
            reason: Reason::TooLarge,
        }),
    }
}

#[cfg(test)]
mod tests {
    use super::*;
    use crate::numbers::number::LIMIT;

    #[test]
    fn sheet_has_as_many_readings_as_days() {
        let field = |numbers: &[u64]| Form::Sheet.field_after(numbers);
        assert_eq!(field(&[]).map(|field| field.allowed), Some(1..=366));
        assert_eq!(field(&[]).map(|field| field.reason), Some(Reason::Counts));
        assert_eq!(field(&[2]).map(|field| field.allowed), Some(0..=LIMIT));
        assert!(field(&[2, 7]).is_some());
        assert_eq!(field(&[2, 7, 7]), None);
    }

    #[test]
    fn period_has_the_fields_of_its_reader() {
        let field = Form::Period.field_after(&[]);
        assert_eq!(field.map(|field| field.reason), Some(Reason::Edition));
        let whole = [1, 1, 1, 0, 0, 1, 0, 6, 0, 0];
        assert!(Form::Period.field_after(&whole[..9]).is_some());
        assert_eq!(Form::Period.field_after(&whole), None);
    }
}
