//! Seeded lists of both forms: some as they should be, the others at fault in every way.

use super::form::Form;
use crate::numbers::faults::outside;
use crate::numbers::number::LIMIT;
use crate::periods::records::ANY_NUMBER;
use crate::periods::seeded::seeded_period;
use crate::periods::seeded::wishes::{Size, Wish};
use crate::seeded::Seeded;
use crate::sheets::sheet::Sheet;
use std::iter;

/// What becomes of a list.
#[derive(Clone, Copy, Debug, PartialEq, Eq)]
enum Fate {
    /// It stays whole.
    Whole,
    /// It ends early.
    CutShort,
    /// A number is over the limit.
    TooLarge,
    /// A field is outside what it may be.
    Outside,
    /// Numbers are left over.
    LeftOver,
    /// A number becomes another one, which may be allowed.
    Replaced,
    /// A number is missing, and those behind it move up.
    Removed,
    /// A number comes in between.
    Inserted,
}

/// All fates, in turn.
const FATES: [Fate; 11] = [
    Fate::Whole,
    Fate::Outside,
    Fate::Whole,
    Fate::CutShort,
    Fate::Outside,
    Fate::Whole,
    Fate::TooLarge,
    Fate::Replaced,
    Fate::LeftOver,
    Fate::Removed,
    Fate::Inserted,
];

/// After this many lists the sizes come again; it shares no factor with the count of fates.
const TURNS_OF_SIZES: usize = 40;
/// Middle-size lists of these.
const MIDDLE_TURNS: usize = 8;
/// Days of sheets of each size; a full one has a leap year.
const SMALL_DAYS: u64 = 9;
const MIDDLE_DAYS: u64 = 90;
/// The most numbers that are left over.
const MOST_LEFT_OVER: usize = 4;

/// Seeded lists of a form without end.
pub fn seeded_lists(form: Form, seed: u64) -> impl Iterator<Item = Vec<u64>> {
    let mut seeded = Seeded::new(seed);
    (0..).map(move |turn: usize| {
        let whole = whole_list(form, size_in_turn(turn), &mut seeded);
        let fate = FATES[turn % FATES.len()];
        after_fate(fate, form, whole, &mut seeded)
    })
}

/// The size whose turn it is.
fn size_in_turn(turn: usize) -> Size {
    match turn % TURNS_OF_SIZES {
        0 => Size::Full,
        turn if turn <= MIDDLE_TURNS => Size::Middle,
        _ => Size::Small,
    }
}

/// A list that is accepted.
fn whole_list(form: Form, size: Size, seeded: &mut Seeded) -> Vec<u64> {
    match form {
        Form::Period => {
            let wish = Wish::any(size, seeded);
            seeded_period(&wish, seeded).numbers()
        }
        Form::Sheet => {
            let days = match size {
                Size::Small => seeded.within(1..=SMALL_DAYS),
                Size::Middle => seeded.within(SMALL_DAYS..=MIDDLE_DAYS),
                Size::Full => Sheet::MOST_DAYS,
            };
            let readings = iter::repeat_with(|| seeded.of_any_size(LIMIT)).take(days as usize);
            let readings = readings.collect();
            Sheet { readings }.numbers()
        }
    }
}

/// The list after its fate.
fn after_fate(fate: Fate, form: Form, mut numbers: Vec<u64>, seeded: &mut Seeded) -> Vec<u64> {
    let place = seeded.up_to(numbers.len() - 1);
    match fate {
        Fate::Whole => {}
        Fate::CutShort => numbers.truncate(place),
        Fate::TooLarge => numbers[place] = over_the_limit(seeded),
        Fate::Outside => set_outside(form, &mut numbers, seeded),
        Fate::LeftOver => {
            let count = 1 + seeded.up_to(MOST_LEFT_OVER - 1);
            let left_over = iter::repeat_with(|| seeded.of_any_size(u64::MAX >> 1)).take(count);
            numbers.extend(left_over.collect::<Vec<u64>>());
        }
        Fate::Replaced => numbers[place] = seeded.of_any_size(LIMIT),
        Fate::Removed => {
            numbers.remove(place);
        }
        Fate::Inserted => numbers.insert(place, seeded.of_any_size(LIMIT)),
    }
    numbers
}

/// A number over the limit, near it or far from it.
fn over_the_limit(seeded: &mut Seeded) -> u64 {
    let any = seeded.within(LIMIT + 1..=u64::MAX >> 1);
    let in_five_groups = seeded.within(LIMIT + 1..=(1 << 35) - 1);
    seeded.pick(&[LIMIT + 1, in_five_groups, any, u64::MAX])
}

/// Sets a field that has bounds of its own to a value outside of them. Fields of few numbers are as
/// likely as those of many.
fn set_outside(form: Form, numbers: &mut [u64], seeded: &mut Seeded) {
    let fields = (0..numbers.len()).filter_map(|place| {
        let field = form.field_after(&numbers[..place])?;
        (field.allowed != ANY_NUMBER).then_some((place, field))
    });
    let fields: Vec<_> = fields.collect();
    let mut reasons: Vec<u8> = fields.iter().map(|(_, field)| field.reason as u8).collect();
    reasons.dedup();
    let reason = seeded.pick(&reasons);
    let of_reason: Vec<_> = fields
        .iter()
        .filter(|(_, field)| field.reason as u8 == reason)
        .collect();
    let (place, field) = of_reason[seeded.up_to(of_reason.len() - 1)];
    numbers[*place] = outside(&field.allowed, seeded);
}

#[cfg(test)]
mod tests {
    use super::*;
    use crate::writing::list::write_list;
    use std::collections::BTreeMap;

    /// How often lists of a form are written, as 0, and refused for each reason.
    fn tally(form: Form, count: usize) -> BTreeMap<u8, usize> {
        let mut tally = BTreeMap::new();
        for numbers in seeded_lists(form, 1).take(count) {
            let refused = write_list(&numbers, form).err();
            let reason = refused.map_or(0, |placed| placed.reason as u8);
            *tally.entry(reason).or_default() += 1;
        }
        tally
    }

    #[test]
    fn lists_are_written_and_refused_for_every_reason() {
        let periods = tally(Form::Period, 2000);
        let reasons: Vec<u8> = periods.keys().copied().collect();
        assert_eq!(reasons, [0, 1, 3, 4, 5, 6, 7, 8, 9], "{periods:?}");
        assert!(periods.values().all(|&count| count >= 50), "{periods:?}");
        let sheets = tally(Form::Sheet, 2000);
        let reasons: Vec<u8> = sheets.keys().copied().collect();
        assert_eq!(reasons, [0, 1, 3, 5, 9], "{sheets:?}");
        assert!(sheets.values().all(|&count| count >= 100), "{sheets:?}");
    }

    #[test]
    fn lists_of_every_size_are_written() {
        for (form, longest) in [(Form::Period, 2708), (Form::Sheet, 367)] {
            let lists = seeded_lists(form, 1).take(500);
            let written = lists.filter(|numbers| write_list(numbers, form).is_ok());
            let lengths: Vec<usize> = written.map(|numbers| numbers.len()).collect();
            assert!(lengths.contains(&longest));
            assert!(lengths.iter().any(|&length| length < 20));
        }
    }

    #[test]
    fn every_run_makes_the_same_lists() {
        let lists = || seeded_lists(Form::Period, 7).take(60).collect::<Vec<_>>();
        assert_eq!(lists(), lists());
    }
}
