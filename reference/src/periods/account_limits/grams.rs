//! The gram total of an owner at its limit and past it: refusal 10.

use super::full_size::{
    set_grams, set_kg, set_line, through_all_at_limit, LINES, OWNERS_AT_ENDS, PLANTS, SEGMENTS,
};
use crate::numbers::number::LIMIT;
use crate::periods::classes::GRAMS_OF_A_KG;
use crate::periods::emissions::LARGEST_GRAM_TOTAL;
use crate::periods::records::{Line, Owner, Period};

/// Owners of which two have lines by turns, some with the same number.
const PAIRS: [(Owner, Owner); 4] = [
    (Owner::Plant(1), Owner::Plant(2)),
    (Owner::Plant(1), Owner::Segment(1)),
    (Owner::Segment(PLANTS), Owner::Plant(PLANTS)),
    (Owner::Segment(1), Owner::Segment(SEGMENTS)),
];
/// The lines that bring a total to its limit or past it.
const DECIDING_LINES: [usize; 7] = [1, 2, 255, 256, 257, LINES - 1, LINES];
/// The lines that bring the totals of two owners past it.
const DECIDING_LINES_OF_PAIRS: [usize; 4] = [3, 256, LINES - 1, LINES];
/// The largest total in kg.
const LARGEST_KG: u64 = LARGEST_GRAM_TOTAL / GRAMS_OF_A_KG;
/// Quantities and factors whose products are the largest total.
const AT_LIMIT: [(u64, u64); 3] = [
    (LIMIT, GRAMS_OF_A_KG),
    (
        LARGEST_GRAM_TOTAL / *Line::FACTORS.end(),
        *Line::FACTORS.end(),
    ),
    (2_000_000, 2_000_000),
];
/// Quantities and factors whose products are past it: the first by one gram, the last as far as
/// can be.
const PAST_LIMIT: [(u64, u64); 3] = [
    (2_002_001, 1_998_001),
    (LIMIT, GRAMS_OF_A_KG + 1),
    (LIMIT, *Line::FACTORS.end()),
];
/// What a second line brings, in kg; the first one brings the rest.
const KG_OF_SECOND: u64 = 1234;

/// Totals of one owner, and of two that have lines by turns, at the limit and past it.
pub fn around_limit() -> Vec<Period> {
    let of_one = OWNERS_AT_ENDS.into_iter().flat_map(of_one_owner);
    let of_two = PAIRS.into_iter().flat_map(of_two_owners);
    of_one.chain(of_two).collect()
}

/// Totals that one line, two lines and all lines bring to the limit and past it.
fn of_one_owner(owner: Owner) -> Vec<Period> {
    let mut periods = vec![all_lines(&[owner])];
    for line in DECIDING_LINES {
        periods.extend(AT_LIMIT.map(|product| one_line(owner, line, product)));
        periods.extend(PAST_LIMIT.map(|product| one_line(owner, line, product)));
        periods.push(one_kg_more(&[owner], line));
        if line > 1 {
            periods.push(two_lines(owner, line, 0));
            periods.push(two_lines(owner, line, 1));
        }
    }
    periods
}

/// Totals that the lines of two owners by turns bring to the limit, and one or both past it.
fn of_two_owners((one, other): (Owner, Owner)) -> Vec<Period> {
    let mut periods = vec![all_lines(&[one, other])];
    periods.extend(DECIDING_LINES.map(|line| one_kg_more(&[one, other], line)));
    for line in DECIDING_LINES_OF_PAIRS {
        for line_of_other in DECIDING_LINES_OF_PAIRS {
            if line != line_of_other {
                periods.push(both_pass((one, line), (other, line_of_other)));
            }
        }
    }
    periods
}

/// The owner has one line with grams, of this number and product.
fn one_line(owner: Owner, line: usize, (quantity, factor): (u64, u64)) -> Period {
    let mut period = through_all_at_limit();
    set_line(&mut period, line, owner, quantity, factor);
    period
}

/// The first line and this one bring the owner to the limit and `more` grams past it.
fn two_lines(owner: Owner, line: usize, more: u64) -> Period {
    let mut period = through_all_at_limit();
    set_kg(&mut period, 1, owner, LARGEST_KG - KG_OF_SECOND);
    let grams = KG_OF_SECOND * GRAMS_OF_A_KG + more;
    set_grams(&mut period, line, owner, grams);
    period
}

/// All lines, which the owners have by turns, bring each owner exactly to the limit.
fn all_lines(owners: &[Owner]) -> Period {
    let lines_of_each = LINES / owners.len();
    let mut period = through_all_at_limit();
    for line in 1..=LINES {
        let owner = owners[(line - 1) % owners.len()];
        set_kg(&mut period, line, owner, LARGEST_KG / lines_of_each as u64);
    }
    period
}

/// As `all_lines`, this line with one kg more: the owner's last line passes the limit.
fn one_kg_more(owners: &[Owner], line: usize) -> Period {
    let mut period = all_lines(owners);
    period.lines[line - 1].quantity += 1;
    period
}

/// The first two lines bring two owners to the limit, and one line of each one gram past it.
fn both_pass((one, line): (Owner, usize), (other, line_of_other): (Owner, usize)) -> Period {
    let mut period = through_all_at_limit();
    set_kg(&mut period, 1, one, LARGEST_KG);
    set_kg(&mut period, 2, other, LARGEST_KG);
    set_grams(&mut period, line, one, 1);
    set_grams(&mut period, line_of_other, other, 1);
    period
}

#[cfg(test)]
mod tests {
    use super::super::answers::{answer, rows};
    use super::*;

    #[test]
    fn products_are_at_the_limit_and_past_it() {
        for (quantity, factor) in AT_LIMIT {
            assert_eq!(quantity * factor, LARGEST_GRAM_TOTAL);
        }
        let (quantity, factor) = PAST_LIMIT[0];
        assert_eq!(quantity * factor, LARGEST_GRAM_TOTAL + 1);
    }

    #[test]
    fn line_that_passes_the_limit_is_refused() {
        for owner in OWNERS_AT_ENDS {
            for line in DECIDING_LINES {
                for product in AT_LIMIT {
                    assert_eq!(answer(&one_line(owner, line, product)), "A");
                }
                for product in PAST_LIMIT {
                    let refused = format!("R 10 {line}");
                    assert_eq!(answer(&one_line(owner, line, product)), refused);
                }
                if line > 1 {
                    assert_eq!(answer(&two_lines(owner, line, 0)), "A");
                    let refused = format!("R 10 {line}");
                    assert_eq!(answer(&two_lines(owner, line, 1)), refused);
                }
            }
        }
    }

    #[test]
    fn last_line_of_the_owner_passes_where_all_lines_count() {
        for owner in OWNERS_AT_ENDS {
            assert_eq!(answer(&all_lines(&[owner])), "A");
            assert_eq!(answer(&one_kg_more(&[owner], 2)), "R 10 512");
        }
        for (one, other) in PAIRS {
            assert_eq!(answer(&all_lines(&[one, other])), "A");
            assert_eq!(answer(&one_kg_more(&[one, other], 255)), "R 10 511");
            assert_eq!(answer(&one_kg_more(&[one, other], 256)), "R 10 512");
        }
    }

    #[test]
    fn first_of_two_lines_that_pass_decides() {
        for (one, other) in PAIRS {
            assert_eq!(answer(&both_pass((one, 3), (other, 512))), "R 10 3");
            assert_eq!(answer(&both_pass((one, 512), (other, 256))), "R 10 256");
        }
    }

    #[test]
    fn largest_total_is_charged_in_full() {
        let rows = rows(&all_lines(&[Owner::Segment(SEGMENTS), Owner::Plant(1)]));
        assert_eq!(rows.segments[31].emission, LIMIT);
        assert_eq!(rows.plants[0].associated, LIMIT + LIMIT / 16);
        assert_eq!(rows.plants[15].associated, LIMIT / 16);
    }
}
