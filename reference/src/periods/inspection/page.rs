//! The inspector's page: a walk through a file number by number, whether and where the period's
//! reading refuses the file, and how the walk ends.

use super::named_field::NamedField;
use crate::numbers::number::{bytes_of_number, read_number, Reading, Refusal};
use crate::periods::reading::read_period;
use crate::questions::hex;
use crate::refusal::Refused;
use std::fmt;

/// How many bytes of a file are walked; a longer file is cut.
pub const BUFFER_BYTES: usize = 65_535;
/// Printed in place of the value of a number that has a fault.
const NO_VALUE: &str = "-";
/// Ends the line of the number at which reading refuses the file.
const MARK: &str = " <--";

/// One number that the walk came to.
#[derive(Debug, PartialEq, Eq)]
struct Step {
    place: usize,
    /// The byte where the number starts.
    byte: u64,
    found: Found,
    field: NamedField,
}

/// What a number is found to be.
#[derive(Debug, PartialEq, Eq)]
enum Found {
    Value(u64),
    /// A number with a fault: those of its bytes that are there.
    Fault(Vec<u8>),
}

/// How the walk ends.
#[derive(Clone, Copy, Debug, PartialEq, Eq)]
pub enum End {
    /// The number at this place has the fault 1, 2 or 3.
    Fault { refusal: Refusal, place: usize },
    /// The file ends, whether a number is needed there or not: how many numbers and bytes it has.
    OfFile { place: usize, byte: u64 },
    /// The file goes on behind the buffer; the first number that is not whole in the buffer, and
    /// the byte where it starts.
    Cut { place: usize, byte: u64 },
}

/// The page of a file.
#[derive(Debug, PartialEq, Eq)]
pub struct Page {
    steps: Vec<Step>,
    /// Why the period's reading refuses the file, nothing if the file was read.
    pub refused: Option<Refused>,
    pub end: End,
}

/// The page of the file: what the walk finds, and what reading the whole file says. What the
/// accounts refuse is not looked at.
pub fn inspect(file: &[u8]) -> Page {
    let (steps, end) = walk(file);
    let refused = read_period(file).err();
    Page {
        steps,
        refused,
        end,
    }
}

/// Walks the file as far as the buffer holds it. No field behind the header is tested.
fn walk(file: &[u8]) -> (Vec<Step>, End) {
    let held = &file[..file.len().min(BUFFER_BYTES)];
    let is_cut = held.len() < file.len();
    let mut numbers = Vec::new();
    let mut steps = Vec::new();
    let mut byte = 0;
    loop {
        let place = numbers.len();
        let field = NamedField::after(&numbers);
        let step = |found| Step {
            place,
            byte,
            found,
            field,
        };
        match read_number(held, byte) {
            Reading::Number { value, next, .. } => {
                steps.push(step(Found::Value(value)));
                numbers.push(value);
                byte = next;
            }
            Reading::Refused {
                refusal: Refusal::FileEnds,
                ..
            } if is_cut => {
                return (steps, End::Cut { place, byte });
            }
            Reading::Refused { .. } if byte == held.len() as u64 => {
                return (steps, End::OfFile { place, byte });
            }
            Reading::Refused { refusal, .. } => {
                let there = bytes_of_number(&held[byte as usize..]);
                steps.push(step(Found::Fault(there.to_vec())));
                return (steps, End::Fault { refusal, place });
            }
        }
    }
}

impl Page {
    /// True if the number that starts at this byte is the one at which reading refuses the file.
    fn is_refused_at(&self, byte: u64) -> bool {
        self.refused.map_or(false, |refused| refused.offset == byte)
    }
}

impl fmt::Display for Step {
    fn fmt(&self, out: &mut fmt::Formatter) -> fmt::Result {
        let Step {
            place, byte, field, ..
        } = self;
        match &self.found {
            Found::Value(value) => write!(out, "{place} {byte} {value} {field}"),
            Found::Fault(there) => {
                let there = hex(there, " ");
                write!(out, "{place} {byte} {NO_VALUE} {field}: {there}")
            }
        }
    }
}

impl fmt::Display for End {
    fn fmt(&self, out: &mut fmt::Formatter) -> fmt::Result {
        match self {
            End::Fault { refusal, place } => write!(out, "F {} {place}", refusal.number()),
            End::OfFile { place, byte } => write!(out, "E {place} {byte}"),
            End::Cut { place, byte } => write!(out, "C {place} {byte}"),
        }
    }
}

impl fmt::Display for Page {
    fn fmt(&self, out: &mut fmt::Formatter) -> fmt::Result {
        for step in &self.steps {
            let mark = if self.is_refused_at(step.byte) {
                MARK
            } else {
                ""
            };
            writeln!(out, "{step}{mark}")?;
        }
        if let Some(refused) = &self.refused {
            writeln!(out, "{refused}")?;
        }
        writeln!(out, "{}", self.end)
    }
}

/// What the tests of the suites look at.
#[cfg(test)]
pub mod pages_checked {
    use super::inspect;

    /// The lines of the file's page behind those of its numbers, with commas between them.
    pub fn closing(file: &[u8]) -> String {
        let page = inspect(file);
        match page.refused {
            Some(refused) => format!("{refused}, {}", page.end),
            None => page.end.to_string(),
        }
    }
}

#[cfg(test)]
mod tests {
    use super::*;
    use crate::numbers::number::{write_number, LIMIT, MORE_FOLLOW, MOST_GROUPS};
    use crate::numbers::writing::{with_values, write_numbers};
    use crate::periods::accounts::{account, Tables};
    use crate::periods::paper::{proved_files, whole_period, WHOLE_PERIOD};

    /// A header that is not allowed.
    const NOT_ALLOWED: [u8; 4] = [0x02, 0x01, 0x01, 0x00];

    fn page_of(file: &[u8]) -> String {
        inspect(file).to_string()
    }

    /// The last lines of the file's page, as many as are asked for.
    fn last_lines(file: &[u8], count: usize) -> Vec<String> {
        let page = page_of(file);
        let lines: Vec<&str> = page.lines().collect();
        let last = &lines[lines.len() - count..];
        last.iter().map(|line| line.to_string()).collect()
    }

    /// A header that is not allowed, filled up to `length` bytes with numbers of one byte, then the
    /// others.
    fn ones_then(length: usize, then: &[u8]) -> Vec<u8> {
        let mut file = NOT_ALLOWED.to_vec();
        file.resize(length, 0x01);
        file.extend(then);
        file
    }

    #[test]
    fn page_of_the_whole_period() {
        assert_eq!(
            page_of(&whole_period()),
            "0 0 1 edition\n\
             1 1 2 plants\n\
             2 2 2 segments\n\
             3 3 2 lines\n\
             4 4 10000 plant 1 exported\n\
             5 6 1 plant 1 first segment\n\
             6 7 1000000 plant 1 origin fraction\n\
             7 10 5001 plant 2 exported\n\
             8 12 1 plant 2 first segment\n\
             9 13 900000 plant 2 origin fraction\n\
             10 16 1 segment 1 kind\n\
             11 17 14900 segment 1 metered outflow\n\
             12 19 2 segment 1 next segment\n\
             13 20 6 segment 2 kind\n\
             14 21 14899 segment 2 metered outflow\n\
             15 23 0 segment 2 next segment\n\
             16 24 0 line 1 owner kind\n\
             17 25 1 line 1 owner number\n\
             18 26 4 line 1 class\n\
             19 27 2000 line 1 quantity\n\
             20 29 350 line 1 factor\n\
             21 31 1 line 2 owner kind\n\
             22 32 1 line 2 owner number\n\
             23 33 3 line 2 class\n\
             24 34 101 line 2 quantity\n\
             25 35 2650 line 2 factor\n\
             E 26 37\n"
        );
    }

    #[test]
    fn header_that_is_not_whole_ends_the_page() {
        assert_eq!(page_of(&[]), "R 1 0 0\nE 0 0\n");
        assert_eq!(page_of(&[0x80]), "0 0 - edition: 80 <--\nR 1 0 0\nF 1 0\n");
        assert_eq!(page_of(&[0x01]), "0 0 1 edition\nR 1 1 1\nE 1 1\n");
        assert_eq!(page_of(&[0x02]), "0 0 2 edition <--\nR 4 0 0\nE 1 1\n");
        assert_eq!(
            page_of(&[0x02, 0x00, 0xAC, 0x02]),
            "0 0 2 edition <--\n1 1 0 plants\n2 2 300 segments\nR 4 0 0\nE 3 4\n"
        );
        assert_eq!(
            page_of(&[0x01, 0x02, 0xAC]),
            "0 0 1 edition\n1 1 2 plants\n2 2 - segments: AC <--\nR 1 2 2\nF 1 2\n"
        );
    }

    #[test]
    fn header_that_is_not_allowed_tells_nothing() {
        assert_eq!(
            page_of(&NOT_ALLOWED),
            "0 0 2 edition <--\n1 1 1 plants\n2 2 1 segments\n3 3 0 lines\nR 4 0 0\nE 4 4\n"
        );
        let numbers_behind = [&NOT_ALLOWED[..], &[0x07, 0xAC, 0x02]].concat();
        assert_eq!(
            last_lines(&numbers_behind, 4),
            [
                "4 4 7 not told by the header",
                "5 5 300 not told by the header",
                "R 4 0 0",
                "E 6 7",
            ]
        );
        let ends_inside = [&NOT_ALLOWED[..], &[0x07, 0xAC]].concat();
        assert_eq!(
            last_lines(&ends_inside, 3),
            ["5 5 - not told by the header: AC", "R 4 0 0", "F 1 5"]
        );
    }

    #[test]
    fn file_may_end_early_before_every_number_and_inside_it() {
        for place in 0..WHOLE_PERIOD.len() {
            let before = write_numbers(&WHOLE_PERIOD[..place]);
            let byte = before.len();
            let page = page_of(&before);
            assert_eq!(page.lines().count(), place + 2, "no line for the number");
            assert_eq!(page.matches(MARK).count(), 0, "nothing to mark");
            assert!(page.ends_with(&format!("R 1 {place} {byte}\nE {place} {byte}\n")));

            let page = page_of(&[&before[..], &[0x80]].concat());
            assert_eq!(page.lines().count(), place + 3);
            assert!(page.contains(&format!("{place} {byte} - ")));
            assert!(page.ends_with(&format!(": 80 <--\nR 1 {place} {byte}\nF 1 {place}\n")));
        }
    }

    #[test]
    fn faults_of_numbers_are_told_with_byte_field_and_bytes() {
        let before = write_numbers(&WHOLE_PERIOD[..6]);
        let last = |form: &[u8]| last_lines(&[&before[..], form, &[0x00; 9]].concat(), 3);
        let line = |bytes| format!("6 7 - plant 1 origin fraction: {bytes} <--");
        assert_eq!(last(&[0x80, 0x00]), [&line("80 00"), "R 2 6 7", "F 2 6"]);
        assert_eq!(
            last(&[MORE_FOLLOW; MOST_GROUPS]),
            [&line("80 80 80 80 80"), "R 3 6 7", "F 3 6"]
        );
        assert_eq!(
            last(&write_number(LIMIT + 1)),
            [&line("81 D0 AC F3 0E"), "R 3 6 7", "F 3 6"]
        );
        assert_eq!(
            page_of(&[0x80, 0x00]),
            "0 0 - edition: 80 00 <--\nR 2 0 0\nF 2 0\n"
        );
    }

    #[test]
    fn number_at_fault_has_no_more_bytes_than_it_may_and_the_file_has() {
        let line = |form: &[u8]| {
            let file = [&[0x01, 0x01, 0x01, 0x00], form].concat();
            let page = page_of(&file);
            page.lines().nth(4).map(str::to_string)
        };
        for (form, shown) in [
            (&[0xFF][..], "FF"),
            (&[0xFF, 0x8A], "FF 8A"),
            (&[0xFF, 0x8A, 0x90, 0xA0], "FF 8A 90 A0"),
            (&[0xFF, 0x8A, 0x00, 0xA0], "FF 8A 00"),
            (&[0xFF, 0x8A, 0x90, 0xA0, 0x00, 0x07], "FF 8A 90 A0 00"),
            (&[0xFF, 0x8A, 0x90, 0xA0, 0xB0, 0x07], "FF 8A 90 A0 B0"),
            (&[0xFF, 0x8A, 0x90, 0xA0, 0x7F, 0x07], "FF 8A 90 A0 7F"),
        ] {
            let expected = format!("4 4 - plant 1 exported: {shown} <--");
            assert_eq!(line(form), Some(expected));
        }
    }

    #[test]
    fn walk_goes_on_where_reading_refuses() {
        let store_leads_on = write_numbers(&with_values(&WHOLE_PERIOD[..25], &[(15, 1)]));
        let page = |form: &[u8]| page_of(&[&store_leads_on, form].concat());
        for (form, end) in [
            (&[][..], "R 7 15 23\nE 25 35\n"),
            (&[0x80], "25 35 - line 2 factor: 80\nR 7 15 23\nF 1 25\n"),
            (
                &[0x80, 0x00],
                "25 35 - line 2 factor: 80 00\nR 7 15 23\nF 2 25\n",
            ),
            (
                &[0x80; 5],
                "25 35 - line 2 factor: 80 80 80 80 80\nR 7 15 23\nF 3 25\n",
            ),
        ] {
            let page = page(form);
            assert!(page.contains("\n15 23 1 segment 2 next segment <--\n16 24 "));
            assert!(page.ends_with(&format!("\n24 34 101 line 2 quantity\n{end}")));
        }
    }

    #[test]
    fn numbers_after_the_last_are_read_too() {
        let last = |after: &[u8], count| last_lines(&[&whole_period(), after].concat(), count);
        assert_eq!(
            last(&[0x00, 0xAC, 0x02], 4),
            [
                "26 37 0 after the last number <--",
                "27 38 300 after the last number",
                "R 9 26 37",
                "E 28 40",
            ]
        );
        let line = |bytes| format!("26 37 - after the last number: {bytes} <--");
        assert_eq!(last(&[0x80], 3), [&line("80"), "R 9 26 37", "F 1 26"]);
        assert_eq!(
            last(&[0x80, 0x00], 3),
            [&line("80 00"), "R 9 26 37", "F 2 26"]
        );
        assert_eq!(
            last(&[0xFF; 5], 3),
            [&line("FF FF FF FF FF"), "R 9 26 37", "F 3 26"]
        );
        assert_eq!(
            last(&[0x05, 0x80, 0x00], 4),
            [
                "26 37 5 after the last number <--",
                "27 38 - after the last number: 80 00",
                "R 9 26 37",
                "F 2 27",
            ]
        );
    }

    #[test]
    fn values_out_of_their_range_are_printed_like_any_other() {
        let changed = with_values(&WHOLE_PERIOD, &[(13, 4_000_000_000), (25, 1_000_000_001)]);
        let page = page_of(&write_numbers(&changed));
        assert!(page.contains("\n13 20 4000000000 segment 2 kind <--\n14 25 14899 "));
        assert!(page.ends_with("\n25 39 1000000001 line 2 factor\nR 7 13 20\nE 26 44\n"));
    }

    #[test]
    fn refusal_is_that_of_reading_and_never_that_of_the_accounts() {
        for file in proved_files() {
            let refused = account(&file, Tables::LARGE_ENOUGH).err();
            let by_reading = refused.filter(|refused| refused.reason as u8 <= 9);
            assert_eq!(inspect(&file).refused, by_reading);
        }
    }

    #[test]
    fn file_as_long_as_the_buffer_is_not_cut() {
        assert_eq!(
            last_lines(&ones_then(65_535, &[]), 3),
            [
                "65534 65534 1 not told by the header",
                "R 4 0 0",
                "E 65535 65535",
            ]
        );
        assert_eq!(
            last_lines(&ones_then(65_531, &[0x80; 4]), 3),
            [
                "65531 65531 - not told by the header: 80 80 80 80",
                "R 4 0 0",
                "F 1 65531",
            ]
        );
    }

    #[test]
    fn longer_file_is_cut_at_the_first_number_that_is_not_whole() {
        let limit = write_number(LIMIT);
        for length in [65_536, 65_537, 70_000] {
            assert_eq!(
                last_lines(&ones_then(length, &[]), 3),
                [
                    "65534 65534 1 not told by the header",
                    "R 4 0 0",
                    "C 65535 65535",
                ]
            );
        }
        for start in 65_531..=65_535 {
            let expected = format!("C {start} {start}");
            assert_eq!(last_lines(&ones_then(start, &limit), 1), [&expected[..]]);
        }
        assert_eq!(
            last_lines(&ones_then(65_530, &[&limit[..], &[0x01]].concat()), 3),
            [
                "65530 65530 4000000000 not told by the header",
                "R 4 0 0",
                "C 65531 65535",
            ]
        );
    }

    #[test]
    fn faults_2_and_3_are_told_where_the_buffer_holds_them() {
        let faults = [
            (&[0x80, 0x00][..], "F 2"),
            (&[0x80, 0x80, 0x80, 0x80, 0x00], "F 2"),
            (&[0x80; 5], "F 3"),
            (&[0x81, 0xD0, 0xAC, 0xF3, 0x0E], "F 3"),
        ];
        for (form, fault) in faults {
            let start = 65_535 - form.len();
            let followed = [form, &[0x01]].concat();
            let expected = format!("{fault} {start}");
            assert_eq!(last_lines(&ones_then(start, &followed), 1), [&expected[..]]);
            assert_eq!(last_lines(&ones_then(start, form), 1), [&expected[..]]);

            let later = start + 1;
            let expected = format!("C {later} {later}");
            assert_eq!(last_lines(&ones_then(later, form), 1), [&expected[..]]);
        }
    }
}
