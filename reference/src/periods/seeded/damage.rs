//! Seeded damage to the file of a whole period, each kind for one refusal of 1 to 9.

use crate::file_bytes::{cut_short, with_bytes_after};
use crate::numbers::faults::{not_shortest, outside, too_large};
use crate::numbers::writing::{with_values, write_numbers, write_with_form};
use crate::periods::fields::{fields_of, Field};
use crate::periods::records::{Period, ANY_NUMBER};
use crate::refusal::Reason;
use crate::seeded::Seeded;

/// What is done to a file.
#[derive(Clone, Copy, Debug)]
pub enum Damage {
    /// The file ends early.
    CutShort,
    /// A number gets a zero group at its end.
    NotShortest,
    /// A number gets too many groups or too large a value.
    TooLarge,
    /// A field that is refused for this reason gets a value it may not have.
    OutsideField(Reason),
    /// Bytes come after the last number.
    BytesAfter,
}

/// The bytes of the period with the damage done.
pub fn damaged(period: &Period, damage: Damage, seeded: &mut Seeded) -> Vec<u8> {
    let numbers = period.numbers();
    let any_place = seeded.up_to(numbers.len() - 1);
    match damage {
        Damage::CutShort => cut_short(write_numbers(&numbers), seeded),
        Damage::NotShortest => write_with_form(&numbers, any_place, &not_shortest(seeded)),
        Damage::TooLarge => write_with_form(&numbers, any_place, &too_large(seeded)),
        Damage::OutsideField(reason) => write_numbers(&outside_field(&numbers, reason, seeded)),
        Damage::BytesAfter => with_bytes_after(write_numbers(&numbers), seeded),
    }
}

/// The numbers with one field of this reason outside what it may be; they must have such a field.
fn outside_field(numbers: &[u64], reason: Reason, seeded: &mut Seeded) -> Vec<u64> {
    let fields = fields_of(numbers);
    let can_be_outside = |field: &Field| field.reason == reason && field.allowed != ANY_NUMBER;
    let places: Vec<usize> = (0..numbers.len())
        .filter(|&place| can_be_outside(&fields[place]))
        .collect();
    let place = seeded.pick(&places);
    let value = outside(&fields[place].allowed, seeded);
    with_values(numbers, &[(place, value)])
}

#[cfg(test)]
mod tests {
    use super::*;
    use crate::periods::reading::read_period;
    use crate::periods::seeded::seeded_period;
    use crate::periods::seeded::wishes::{Size, Wish};

    #[test]
    fn each_damage_is_refused_for_its_reason() {
        let damages = [
            (Damage::CutShort, Reason::FileEnds),
            (Damage::NotShortest, Reason::NotShortest),
            (Damage::TooLarge, Reason::TooLarge),
            (Damage::BytesAfter, Reason::BytesAfter),
        ];
        let of_fields = [
            Reason::Edition,
            Reason::Counts,
            Reason::PlantField,
            Reason::SegmentField,
            Reason::LineField,
        ];
        let of_fields = of_fields.map(|reason| (Damage::OutsideField(reason), reason));
        let mut seeded = Seeded::new(1);
        for (damage, reason) in damages.into_iter().chain(of_fields) {
            for size in [Size::Small, Size::Middle, Size::Full] {
                for _ in 0..20 {
                    let wish = Wish::any_with_lines(size, &mut seeded);
                    let period = seeded_period(&wish, &mut seeded);
                    let file = damaged(&period, damage, &mut seeded);
                    let refused = read_period(&file).expect_err("the damage is refused");
                    assert_eq!(refused.reason, reason, "{damage:?}");
                }
            }
        }
    }
}
