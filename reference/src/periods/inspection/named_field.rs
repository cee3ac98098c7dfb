//! What the inspector's page calls the numbers of a file.

use crate::periods::fields::field_after;
use crate::periods::record_places::{RecordKind, RecordPlace};
use crate::periods::records::{Line, Plant, Segment, HEADER_NUMBERS};
use std::fmt;

/// The names of the header's numbers.
const HEADER_NAMES: [&str; HEADER_NUMBERS] = ["edition", "plants", "segments", "lines"];
/// The names of the numbers of each record.
const PLANT_NAMES: [&str; Plant::NUMBERS] = ["exported", "first segment", "origin fraction"];
const SEGMENT_NAMES: [&str; Segment::NUMBERS] = ["kind", "metered outflow", "next segment"];
const LINE_NAMES: [&str; Line::NUMBERS] =
    ["owner kind", "owner number", "class", "quantity", "factor"];

/// Which field a number is, as far as its file's header tells.
#[derive(Clone, Copy, Debug, PartialEq, Eq)]
pub enum NamedField {
    /// The number of the header with this place.
    OfHeader(usize),
    /// A number of the records that the header announces.
    OfRecord(RecordPlace),
    /// A number behind a header that is not allowed.
    NotTold,
    /// A number behind the last that the header announces.
    AfterLast,
}

impl NamedField {
    /// The field of the number after these, which are the first of a file. Those behind the
    /// header need not be allowed.
    pub fn after(numbers: &[u64]) -> Self {
        match *numbers {
            [_, plants, segments, lines, ..] if header_is_allowed(numbers) => {
                let behind_header = numbers.len() - HEADER_NUMBERS;
                let place = RecordPlace::after(behind_header, [plants, segments, lines]);
                place.map_or(NamedField::AfterLast, NamedField::OfRecord)
            }
            [_, _, _, _, ..] => NamedField::NotTold,
            _ => NamedField::OfHeader(numbers.len()),
        }
    }
}

/// True if each number of the header, which must be whole, is allowed.
fn header_is_allowed(numbers: &[u64]) -> bool {
    (0..HEADER_NUMBERS).all(|place| {
        let field = field_after(&numbers[..place]);
        field.map_or(false, |field| field.allowed.contains(&numbers[place]))
    })
}

impl fmt::Display for NamedField {
    fn fmt(&self, out: &mut fmt::Formatter) -> fmt::Result {
        match *self {
            NamedField::OfHeader(place) => out.write_str(HEADER_NAMES[place]),
            NamedField::OfRecord(place) => write_name_in_record(place, out),
            NamedField::NotTold => out.write_str("not told by the header"),
            NamedField::AfterLast => out.write_str("after the last number"),
        }
    }
}

/// Writes the record with its number, then the name of the field in it.
fn write_name_in_record(place: RecordPlace, out: &mut fmt::Formatter) -> fmt::Result {
    let RecordPlace { kind, record, at } = place;
    match kind {
        RecordKind::Plant => write!(out, "plant {record} {}", PLANT_NAMES[at]),
        RecordKind::Segment => write!(out, "segment {record} {}", SEGMENT_NAMES[at]),
        RecordKind::Line => write!(out, "line {record} {}", LINE_NAMES[at]),
    }
}

#[cfg(test)]
mod tests {
    use super::*;
    use crate::numbers::number::LIMIT;
    use crate::numbers::writing::with_values;
    use crate::periods::paper::WHOLE_PERIOD;
    use crate::periods::suites::whole_files::of_counts;

    fn name_after(numbers: &[u64]) -> String {
        NamedField::after(numbers).to_string()
    }

    /// The name of the first number behind this header.
    fn name_behind(header: [u64; HEADER_NUMBERS]) -> String {
        name_after(&header)
    }

    #[test]
    fn numbers_of_the_header_have_their_names_always() {
        for header in [[1, 2, 2, 2], [0, 0, 0, 0], [LIMIT; HEADER_NUMBERS]] {
            let names = [0, 1, 2, 3].map(|place| name_after(&header[..place]));
            assert_eq!(names, ["edition", "plants", "segments", "lines"]);
        }
    }

    #[test]
    fn header_tells_only_where_all_four_numbers_are_allowed() {
        const TOLD: &str = "plant 1 exported";
        const NOT_TOLD: &str = "not told by the header";
        let expected = [
            ([1, 1, 1, 0], TOLD),
            ([1, 16, 32, 512], TOLD),
            ([0, 1, 1, 0], NOT_TOLD),
            ([2, 1, 1, 0], NOT_TOLD),
            ([1, 0, 1, 0], NOT_TOLD),
            ([1, 17, 1, 0], NOT_TOLD),
            ([1, 1, 0, 0], NOT_TOLD),
            ([1, 1, 33, 0], NOT_TOLD),
            ([1, 1, 1, 513], NOT_TOLD),
            ([LIMIT, LIMIT, LIMIT, LIMIT], NOT_TOLD),
        ];
        for (header, name) in expected {
            assert_eq!(name_behind(header), name, "{header:?}");
        }
    }

    #[test]
    fn records_are_numbered_each_kind_by_itself() {
        let numbers = of_counts(16, 32, 512);
        let name_at = |place: usize| name_after(&numbers[..place]);
        assert_eq!(name_at(4), "plant 1 exported");
        assert_eq!(name_at(4 + 16 * 3 - 1), "plant 16 origin fraction");
        assert_eq!(name_at(4 + 16 * 3), "segment 1 kind");
        assert_eq!(name_at(4 + 16 * 3 + 32 * 3 - 1), "segment 32 next segment");
        assert_eq!(name_at(4 + 16 * 3 + 32 * 3), "line 1 owner kind");
        assert_eq!(name_at(numbers.len() - 1), "line 512 factor");
        assert_eq!(name_at(numbers.len()), "after the last number");
    }

    #[test]
    fn values_behind_the_header_do_not_change_the_names() {
        let behind: Vec<(usize, u64)> = (HEADER_NUMBERS..WHOLE_PERIOD.len())
            .map(|place| (place, LIMIT))
            .collect();
        let out_of_range = with_values(&WHOLE_PERIOD, &behind);
        for place in 0..=WHOLE_PERIOD.len() {
            let name = name_after(&WHOLE_PERIOD[..place]);
            assert_eq!(name_after(&out_of_range[..place]), name);
        }
    }
}
