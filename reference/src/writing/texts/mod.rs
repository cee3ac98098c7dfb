//! The programs that write texts as files: what is asked of them, and the suites of texts. Every run
//! asks the same ones, and each text means a start of the program, so there are few. The first
//! program is asked about every byte inside a number, the other about every byte at the end.

mod bytes;
pub mod file;
mod long;
mod refused;
mod seeded;
mod spellings;

use super::form::Form;
use super::samples::{texts_of, PERIODS, SHEETS};
use super::text::text_of;
use crate::numbers::number::LIMIT;
use crate::periods::paper::WHOLE_PERIOD;
use crate::questions::Suite;
use crate::sheets::files::years::{largest_year, mixed_year};
use crate::sheets::sheet::Sheet;
use file::{PeriodText, SheetText};

/// One plant, one store and one line of fuel: a short list with a record of each kind.
const SHORT_PERIOD: [u64; 15] = [1, 1, 1, 1, 300, 1, 1_000_000, 6, 290, 0, 0, 1, 3, 40, 2650];
/// The place of its quantity.
const QUANTITY_AT: usize = 13;
/// The numbers of a sheet of five days.
const FIVE_DAYS: [u64; 6] = [5, 300, 0, LIMIT, 7, 128];
/// The place of one of its readings.
const READING_AT: usize = 2;
/// A text with a remark, and where in it bytes are put: before a number, between digits, in a remark,
/// and at the end.
const SHEET_WITH_REMARK: &[u8] = b"2 # two\n10 34";
const BEFORE_NUMBER: usize = 8;
const BETWEEN_DIGITS: usize = 9;
const IN_REMARK: usize = 5;
/// The same in a period.
const PERIOD_WITH_REMARK: &[u8] = b"1 1 1 0 # one\n300 1 0 6 290 0";
const BEFORE_EXPORT: usize = 14;
const BETWEEN_ITS_DIGITS: usize = 15;
const IN_ITS_REMARK: usize = 10;

/// How many seeded texts there are of each form.
const SEEDED_TEXTS: usize = 110;
/// Their seeds.
const SEED_OF_PERIODS: u64 = 0x5EED_0017;
const SEED_OF_SHEETS: u64 = 0x5EED_0018;

/// All suites for the program that writes period files.
pub fn period_texts() -> Vec<Suite<PeriodText>> {
    let text = PERIOD_WITH_REMARK;
    let suite = |name, texts: Vec<Vec<u8>>| {
        let cases = texts.into_iter().map(PeriodText).collect();
        Suite::new(name, cases)
    };
    vec![
        suite("writes, the samples", texts_of(&PERIODS)),
        suite("writes, hardly any text", hardly_any_text()),
        suite(
            "writes, every byte between digits",
            bytes::every_byte_at(text, &[BETWEEN_ITS_DIGITS]),
        ),
        suite(
            "writes, every byte before a number, in a remark, at both ends",
            bytes::every_byte_at(text, &[0, BEFORE_EXPORT, IN_ITS_REMARK, text.len()]),
        ),
        suite("writes, remarks and byte order marks", marks(text)),
        suite("writes, one list spelt in many ways", spelt(&SHORT_PERIOD)),
        suite(
            "writes, numbers of many digits",
            spellings::with_many_digits(&SHORT_PERIOD, QUANTITY_AT),
        ),
        suite(
            "writes, every refusal with its offset",
            refusals(&WHOLE_PERIOD, Form::Period),
        ),
        suite(
            "writes, texts as long as can be and longer",
            long::long_texts(&text_of(&SHORT_PERIOD)),
        ),
        suite(
            "writes, seeded accepted and refused",
            seeded_texts(Form::Period, SEED_OF_PERIODS),
        ),
    ]
}

/// All suites for the program that writes sheets.
pub fn sheet_texts() -> Vec<Suite<SheetText>> {
    let text = SHEET_WITH_REMARK;
    let suite = |name, texts: Vec<Vec<u8>>| {
        let cases = texts.into_iter().map(SheetText).collect();
        Suite::new(name, cases)
    };
    vec![
        suite("writes days, the samples", texts_of(&SHEETS)),
        suite("writes days, hardly any text", hardly_any_text()),
        suite(
            "writes days, every byte at the end",
            bytes::every_byte_at(text, &[text.len()]),
        ),
        suite(
            "writes days, every byte before a number, between digits, in a remark",
            bytes::every_byte_at(text, &[0, BEFORE_NUMBER, BETWEEN_DIGITS, IN_REMARK]),
        ),
        suite("writes days, remarks and byte order marks", marks(text)),
        suite(
            "writes days, one list spelt in many ways",
            spelt(&FIVE_DAYS),
        ),
        suite(
            "writes days, numbers of many digits",
            spellings::with_many_digits(&FIVE_DAYS, READING_AT),
        ),
        suite(
            "writes days, every refusal with its offset",
            refusals(&FIVE_DAYS, Form::Sheet),
        ),
        suite("writes days, counts and years", counts_and_years()),
        suite(
            "writes days, texts as long as can be and longer",
            long::long_texts(&text_of(&FIVE_DAYS)),
        ),
        suite(
            "writes days, seeded accepted and refused",
            seeded_texts(Form::Sheet, SEED_OF_SHEETS),
        ),
    ]
}

/// Texts with no number or with one.
fn hardly_any_text() -> Vec<Vec<u8>> {
    let texts: [&[u8]; 17] = [
        b"",
        b" ",
        b"\n",
        b"\r\n",
        b"#",
        b"#\n",
        b"# only a remark",
        b"# two\n# remarks\r\n\r\n",
        b"0",
        b"1",
        b"2",
        b"12#x",
        b"1#",
        b"1\n",
        b"x",
        b"-",
        b"\0",
    ];
    texts.map(<[u8]>::to_vec).to_vec()
}

/// The text behind remarks of every byte, and with byte order marks.
fn marks(text: &[u8]) -> Vec<Vec<u8>> {
    let mut texts = bytes::behind_remarks_of_every_byte(text);
    texts.extend(bytes::with_byte_order_marks(text));
    texts
}

/// The list with other spaces, with remarks, and with zeros.
fn spelt(numbers: &[u64]) -> Vec<Vec<u8>> {
    let mut texts = spellings::spaced_in_every_way(numbers);
    texts.extend(spellings::with_remarks(numbers));
    texts.extend(spellings::with_zeros(numbers));
    texts
}

/// The list refused at each of its numbers, and behind it.
fn refusals(numbers: &[u64], form: Form) -> Vec<Vec<u8>> {
    let mut texts = refused::at_every_number(numbers, form);
    texts.extend(refused::with_other_byte_behind(numbers));
    texts
}

/// Counts of days at their limits and beside them, with as many readings, one fewer and one more;
/// years of every reading; and sheets that begin with the letters of the lines that refuse a text.
fn counts_and_years() -> Vec<Vec<u8>> {
    let mut texts = Vec::new();
    for count in [0, 1, 2, 127, 128, Sheet::MOST_DAYS, Sheet::MOST_DAYS + 1] {
        for readings in [count.saturating_sub(1), count, count + 1] {
            let numbers = [vec![count], vec![count * 9; readings as usize]].concat();
            texts.push(text_of(&numbers));
        }
    }
    for readings in [mixed_year(), largest_year()] {
        texts.push(text_of(&Sheet { readings }.numbers()));
    }
    for letter in b"RTL" {
        let readings = vec![u64::from(b' '); usize::from(*letter)];
        texts.push(text_of(&Sheet { readings }.numbers()));
    }
    texts
}

fn seeded_texts(form: Form, seed: u64) -> Vec<Vec<u8>> {
    seeded::seeded_texts(form, seed)
        .take(SEEDED_TEXTS)
        .collect()
}

#[cfg(test)]
mod tests {
    use super::*;
    use crate::compare::tally::Tally;
    use crate::questions::suites_checked::assert_same_cases;
    use crate::questions::TextToWrite;

    /// The answers that each suite of periods must meet, and how often at least.
    const MET_BY_PERIODS: [(&[&str], usize); 10] = [
        (&["A"], 5),
        (&["T", "R1", "R4"], 1),
        (&["A", "T", "R1", "R6"], 1),
        (&["A", "T", "R4"], 1),
        (&["A", "T"], 2),
        (&["A"], 30),
        (&["A", "R3"], 5),
        (&["T", "R1", "R3", "R4", "R5", "R6", "R7", "R8", "R9"], 1),
        (&["A", "L", "T", "R1", "R3"], 1),
        (PERIODS_BUT_TOO_LONG, 1),
    ];
    const PERIODS_BUT_TOO_LONG: &[&str] =
        &["A", "T", "R1", "R3", "R4", "R5", "R6", "R7", "R8", "R9"];
    /// The same for sheets.
    const MET_BY_SHEETS: [(&[&str], usize); 11] = [
        (&["A", "R1"], 1),
        (&["T", "R1", "R5"], 1),
        (&["A", "T"], 1),
        (&["A", "T", "R9"], 1),
        (&["A", "T"], 2),
        (&["A"], 30),
        (&["A", "R3"], 5),
        (&["T", "R1", "R3", "R5", "R9"], 1),
        (&["A", "R1", "R5", "R9"], 4),
        (&["A", "L", "T", "R1", "R3"], 1),
        (&["A", "T", "R1", "R3", "R5", "R9"], 1),
    ];

    fn assert_met<T: TextToWrite>(suites: &[Suite<T>], met: &[(&[&str], usize)]) {
        assert_eq!(suites.len(), met.len());
        for (Suite { name, cases, .. }, (labels, at_least)) in suites.iter().zip(met) {
            let mut tally = Tally::new(T::LABELS);
            for case in cases {
                tally.add(&case.written().label());
            }
            for label in *labels {
                assert!(tally.count(label) >= *at_least, "{name}: {tally}");
            }
        }
    }

    #[test]
    fn suites_meet_each_answer_they_can() {
        assert_met(&period_texts(), &MET_BY_PERIODS);
        assert_met(&sheet_texts(), &MET_BY_SHEETS);
    }

    #[test]
    fn texts_are_few_enough_to_start_a_slow_program_for_each() {
        let periods: usize = period_texts().iter().map(|suite| suite.cases.len()).sum();
        assert!((1_500..=1_650).contains(&periods), "{periods}");
        let sheets: usize = sheet_texts().iter().map(|suite| suite.cases.len()).sum();
        assert!((1_500..=1_650).contains(&sheets), "{sheets}");
    }

    #[test]
    fn every_run_asks_the_same_texts() {
        assert_same_cases(&period_texts(), &period_texts());
        assert_same_cases(&sheet_texts(), &sheet_texts());
    }

    #[test]
    fn places_in_the_texts_are_what_they_are_named() {
        assert_eq!(&SHEET_WITH_REMARK[BEFORE_NUMBER..BETWEEN_DIGITS + 1], b"10");
        assert_eq!(&SHEET_WITH_REMARK[IN_REMARK..], b"wo\n10 34");
        let digits = &PERIOD_WITH_REMARK[BEFORE_EXPORT..BETWEEN_ITS_DIGITS + 2];
        assert_eq!(digits, b"300");
        assert_eq!(&PERIOD_WITH_REMARK[IN_ITS_REMARK..BEFORE_EXPORT], b"one\n");
    }

    #[test]
    fn no_sheet_can_be_taken_for_a_line() {
        for letter in b"RTL" {
            let days = usize::from(*letter);
            let shortest_sheet = 1 + days;
            let longest_line = "R 9 366 131071\n".len();
            assert!(shortest_sheet > longest_line);
        }
    }
}
