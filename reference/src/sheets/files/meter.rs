//! Meters that move or stand still for some days, and the readings they give.

/// What a meter does for some days.
#[derive(Clone, Copy, Debug, PartialEq, Eq)]
pub enum Meter {
    /// No day is like the one before, nor like any on which it stands still.
    Moves,
    /// Every day shows this reading.
    Shows(u64),
}

/// The readings at which a meter stands still, two different ones.
pub const STUCK: u64 = 5;
pub const STUCK_OTHERWISE: u64 = 6;

/// The smallest reading of a meter that moves, and how many readings it takes.
const LEAST_MOVING: u64 = 20;
const MOVING_READINGS: u64 = 100;
/// How much further it is each day, turning over.
const MOVED_IN_A_DAY: u64 = 37;

/// The readings of a meter that does one thing after the other, each for the days given with it.
/// All are of one byte if those shown are.
pub fn readings_of(doings: &[(usize, Meter)]) -> Vec<u64> {
    let mut readings = Vec::new();
    for &(days, meter) in doings {
        for _ in 0..days {
            let days_before = readings.len() as u64;
            readings.push(match meter {
                Meter::Moves => LEAST_MOVING + days_before * MOVED_IN_A_DAY % MOVING_READINGS,
                Meter::Shows(reading) => reading,
            });
        }
    }
    readings
}

#[cfg(test)]
mod tests {
    use super::*;
    use crate::sheets::figures::figures_of;
    use crate::sheets::sheet::sheet_of;

    #[test]
    fn moving_meter_never_repeats_itself() {
        let readings = readings_of(&[(366, Meter::Moves)]);
        assert!(readings.iter().all(|reading| (20..120).contains(reading)));
        let figures = figures_of(&sheet_of(&readings)).expect("the sheet is whole");
        assert_eq!(figures.numbers()[1..], [0, 0, 1, 1]);
    }

    #[test]
    fn one_thing_is_done_after_the_other() {
        let readings = readings_of(&[
            (2, Meter::Shows(0)),
            (0, Meter::Moves),
            (3, Meter::Shows(STUCK)),
            (1, Meter::Moves),
        ]);
        assert_eq!(readings[..5], [0, 0, 5, 5, 5]);
        assert_eq!(readings.len(), 6);
        assert!(readings[5] >= LEAST_MOVING);
    }
}
