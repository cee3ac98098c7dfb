//! The period of the longest file that is accepted.

use super::full_size::{export_each, full_size, let_all_pass, set_line, LINES, NO_NEXT, PLANTS};
use crate::numbers::number::{GROUP_BITS, LIMIT, MOST_GROUPS};
use crate::periods::records::Period;

/// The smallest numbers of as many groups as there can be, and of two.
const OF_MOST_GROUPS: u64 = 1 << (GROUP_BITS * (MOST_GROUPS - 1));
const OF_TWO_GROUPS: u64 = 1 << GROUP_BITS;

/// Every number has as many groups as it may, except the factors: if quantity and factor of a
/// line had eight groups together, their product would be past the limit of a gram total.
pub fn longest_accepted() -> Period {
    let mut period = full_size(
        |plant| plant,
        |own| if own <= PLANTS { own + PLANTS } else { NO_NEXT },
    );
    export_each(&mut period, |_| LIMIT);
    let_all_pass(&mut period);
    for line in 1..=LINES {
        let owner = period.lines[line - 1].owner;
        set_line(&mut period, line, owner, OF_MOST_GROUPS, OF_TWO_GROUPS);
    }
    period
}

#[cfg(test)]
mod tests {
    use super::super::answers::answer;
    use super::*;
    use crate::numbers::writing::write_numbers;
    use crate::periods::emissions::LARGEST_GRAM_TOTAL;

    #[test]
    fn file_is_accepted_and_as_long_as_can_be() {
        let period = longest_accepted();
        assert_eq!(answer(&period), "A");
        // Header 5 bytes, a plant 9, a segment 7, a line 10.
        let length = write_numbers(&period.numbers()).len();
        assert_eq!(length, 5 + 16 * 9 + 32 * 7 + 512 * 10);
    }

    #[test]
    fn eight_groups_of_quantity_and_factor_are_past_the_limit() {
        for groups_of_quantity in 3..=MOST_GROUPS {
            let groups_of_factor = 8 - groups_of_quantity;
            let quantity: u64 = 1 << (GROUP_BITS * (groups_of_quantity - 1));
            let factor: u64 = 1 << (GROUP_BITS * (groups_of_factor - 1));
            assert!(quantity * factor > LARGEST_GRAM_TOTAL);
        }
    }
}
