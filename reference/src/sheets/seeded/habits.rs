//! Seeded readings, drawn by the habit of a meter.

use crate::numbers::number::LIMIT;
use crate::seeded::Seeded;
use std::iter;

/// How the readings of a meter change.
#[derive(Clone, Copy, Debug, PartialEq, Eq)]
pub enum Habit {
    /// Each day a reading of any size.
    AnySize,
    /// Each day one of very few small readings, zero among them.
    FewReadings,
    /// Spells of equal days, one after the other, some of them of zeros.
    Spells,
    /// Spells of two readings by turns, each spell about as long as the others.
    EvenSpells,
    /// Each day one of two readings that differ in one bit.
    NearlyEqual,
    /// The largest reading, now and then the one below it.
    Largest,
    /// The same reading every day.
    Stuck,
    /// No kg on most days.
    Dry,
}

impl Habit {
    /// All habits.
    pub const EACH: [Habit; 8] = [
        Habit::AnySize,
        Habit::FewReadings,
        Habit::Spells,
        Habit::EvenSpells,
        Habit::NearlyEqual,
        Habit::Largest,
        Habit::Stuck,
        Habit::Dry,
    ];
}

/// The largest of very few small readings.
const LARGEST_OF_FEW: u64 = 2;
/// One day in this many shows the largest reading less one.
const DAYS_TO_ONE_BELOW: usize = 4;
/// One day in this many is not dry, on sheets that are not dry all the time.
const DAYS_TO_ONE_WITH_KG: usize = 20;
/// One dry sheet in this many is dry all the time.
const SHEETS_TO_ONE_ALL_DRY: usize = 2;
/// About how long even spells are at most.
const LONGEST_EVEN: usize = 10;

/// `days` readings by this habit.
pub fn readings_by(habit: Habit, days: usize, seeded: &mut Seeded) -> Vec<u64> {
    match habit {
        Habit::AnySize => each_day(days, || seeded.of_any_size(LIMIT)),
        Habit::FewReadings => each_day(days, || seeded.within(0..=LARGEST_OF_FEW)),
        Habit::Spells => spells(days, seeded),
        Habit::EvenSpells => even_spells(days, seeded),
        Habit::NearlyEqual => {
            let both = nearly_equal(seeded);
            each_day(days, || seeded.pick(&both))
        }
        Habit::Largest => each_day(days, || LIMIT - u64::from(seeded.one_in(DAYS_TO_ONE_BELOW))),
        Habit::Stuck => vec![1 + seeded.of_any_size(LIMIT - 1); days],
        Habit::Dry if seeded.one_in(SHEETS_TO_ONE_ALL_DRY) => vec![0; days],
        Habit::Dry => each_day(days, || mostly_dry(seeded)),
    }
}

/// A reading for each day, drawn by itself.
fn each_day(days: usize, draw: impl FnMut() -> u64) -> Vec<u64> {
    iter::repeat_with(draw).take(days).collect()
}

/// Spells of any length, short ones as likely as long ones. Neighbours may be alike, and a spell
/// may be a single day.
fn spells(days: usize, seeded: &mut Seeded) -> Vec<u64> {
    let any = seeded.of_any_size(LIMIT);
    let mut readings = Vec::new();
    while readings.len() < days {
        let rest = days - readings.len();
        let spell = 1 + seeded.of_any_size(rest as u64 - 1) as usize;
        let reading = seeded.pick(&[0, 1, any]);
        readings.extend(vec![reading; spell]);
    }
    readings
}

/// Spells of about one length, of two readings by turns. The days may end inside one.
fn even_spells(days: usize, seeded: &mut Seeded) -> Vec<u64> {
    let both = [1 + seeded.of_any_size(LIMIT - 1), seeded.of_any_size(LIMIT)];
    let about = 1 + seeded.up_to(LONGEST_EVEN - 1);
    let mut readings = Vec::new();
    for reading in both.into_iter().cycle() {
        readings.extend(vec![reading; about + seeded.up_to(1)]);
        if readings.len() >= days {
            break;
        }
    }
    readings.truncate(days);
    readings
}

/// A reading of any size, and one that differs from it in one bit.
fn nearly_equal(seeded: &mut Seeded) -> [u64; 2] {
    let reading = seeded.of_any_size(LIMIT);
    let bit = seeded.up_to((u64::BITS - LIMIT.leading_zeros()) as usize - 1);
    [reading, (reading ^ (1 << bit)).min(LIMIT)]
}

/// No kg, or now and then some.
fn mostly_dry(seeded: &mut Seeded) -> u64 {
    if seeded.one_in(DAYS_TO_ONE_WITH_KG) {
        seeded.of_any_size(LIMIT)
    } else {
        0
    }
}

#[cfg(test)]
mod tests {
    use super::*;
    use std::collections::BTreeSet;

    #[test]
    fn every_habit_gives_so_many_readings() {
        let mut seeded = Seeded::new(1);
        for habit in Habit::EACH {
            for days in [1, 2, 3, 59, 366] {
                let readings = readings_by(habit, days, &mut seeded);
                assert_eq!(readings.len(), days, "{habit:?}");
                assert!(readings.iter().all(|&reading| reading <= LIMIT));
            }
        }
    }

    #[test]
    fn habits_are_what_they_say() {
        let mut seeded = Seeded::new(1);
        let mut different = |habit| {
            let readings = readings_by(habit, 366, &mut seeded);
            readings.into_iter().collect::<BTreeSet<u64>>()
        };
        assert!(different(Habit::AnySize).len() > 200);
        assert_eq!(different(Habit::FewReadings), BTreeSet::from([0, 1, 2]));
        assert!(different(Habit::Spells).len() <= 3);
        assert_eq!(different(Habit::EvenSpells).len(), 2);
        assert_eq!(different(Habit::NearlyEqual).len(), 2);
        assert_eq!(
            different(Habit::Largest),
            BTreeSet::from([LIMIT, LIMIT - 1])
        );
        assert_eq!(different(Habit::Stuck).len(), 1);
        assert!(different(Habit::Dry).contains(&0));
    }
}
