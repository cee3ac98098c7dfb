//! The whole period with a number that its field may not be: reading refuses it there, and the
//! walk goes on.

use crate::numbers::writing::with_values;
use crate::periods::paper::WHOLE_PERIOD;

/// Places of the whole period where 0 is not allowed: the count of plants, a first segment, a
/// kind, and an owner number.
const PLACES_WITHOUT_ZERO: [usize; 4] = [1, 5, 10, 17];

/// The numbers of the whole period with 0 at each of these places.
pub fn with_field_not_allowed() -> [Vec<u64>; 4] {
    PLACES_WITHOUT_ZERO.map(|place| with_values(&WHOLE_PERIOD, &[(place, 0)]))
}

#[cfg(test)]
mod tests {
    use super::*;
    use crate::numbers::writing::write_numbers;
    use crate::periods::inspection::page::pages_checked::closing;

    #[test]
    fn each_sort_of_field_is_refused() {
        let closings = with_field_not_allowed().map(|numbers| closing(&write_numbers(&numbers)));
        assert_eq!(
            closings,
            [
                "R 5 1 1, E 26 37",
                "R 6 5 6, E 26 37",
                "R 7 10 16, E 26 37",
                "R 8 17 25, E 26 37",
            ]
        );
    }
}
