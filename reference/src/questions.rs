//! What can be asked of a program: many questions in one run, one answer for each, or what it
//! prints or writes when it is started for one file or text.

use crate::frames::FrameFault;
use crate::writing::written::Written;

/// A question that is put to a program as a frame of bytes and has one right answer.
pub trait Question: Sized {
    /// The form of its answer.
    type Answer: Answer;

    /// The labels of all answers such a question can have, in the order of the report.
    const LABELS: &'static [&'static str];

    /// Appends the frame that puts the question.
    fn write_frame(&self, frames: &mut Vec<u8>);

    /// The question of the first frame and what follows it.
    fn first_frame(input: &[u8]) -> Result<(Self, &[u8]), FrameFault>;

    /// Our own answer.
    fn answer(&self) -> Self::Answer;

    /// All that is needed to ask the question again, in words.
    fn in_words(&self) -> String;
}

/// The right answer to a question, with which a program's answer is compared.
pub trait Answer {
    /// What the answer is counted as.
    fn label(&self) -> String;

    /// The bytes with which a program gives this answer.
    fn bytes(&self) -> Vec<u8>;

    /// How many bytes at the start of the output came for this answer; 0 only if none came.
    fn length_in(&self, output: &[u8]) -> usize;

    /// What was expected and what came instead, in words.
    fn difference(&self, came: &[u8]) -> String;
}

/// A file for which a program is started, and what must be printed then.
pub trait FileToPrint {
    /// The labels of all texts that can be printed, in the order of the report.
    const LABELS: &'static [&'static str];

    /// The labels of what is counted besides, in the order of the report; none if nothing is. A
    /// suite need not meet them.
    const LABELS_BESIDES: &'static [&'static str] = &[];

    /// The file that is put to the program.
    fn file(&self) -> &[u8];

    /// The text that must be printed.
    fn printed(&self) -> String;

    /// What such a text is counted as.
    fn label_of(printed: &str) -> String;

    /// What such a text is counted as besides, if anything.
    fn label_besides(_printed: &str) -> Option<String> {
        None
    }

    /// The file in words.
    fn in_words(&self) -> String;
}

/// A text for which a program is started, and what must be written then: the bytes of a file, or a
/// line.
pub trait TextToWrite {
    /// The labels of all that can be written, in the order of the report.
    const LABELS: &'static [&'static str];

    /// The text that is put to the program.
    fn text(&self) -> &[u8];

    /// What must be written.
    fn written(&self) -> Written;

    /// The text in words.
    fn in_words(&self) -> String;
}

/// Cases that are compared and counted together.
pub struct Suite<C> {
    pub name: &'static str,
    pub cases: Vec<C>,
    /// The suite fails if a possible answer is expected less often than this.
    pub each_answer_at_least: usize,
}

impl<C> Suite<C> {
    /// A suite that need not meet every answer.
    pub fn new(name: &'static str, cases: Vec<C>) -> Self {
        Suite {
            name,
            cases,
            each_answer_at_least: 0,
        }
    }
}

/// The label of an answer line: its letter, and for a refusal or a fault its number too.
pub fn label_of(line: &str) -> String {
    let mut words = line.split_whitespace();
    match words.next() {
        Some(letter @ ("R" | "F")) => format!("{letter}{}", words.next().unwrap_or_default()),
        letter => letter.unwrap_or_default().to_string(),
    }
}

/// Bytes as upper-case hex digits, with the given text between them.
pub fn hex(bytes: &[u8], between: &str) -> String {
    let digits: Vec<String> = bytes.iter().map(|byte| format!("{byte:02X}")).collect();
    digits.join(between)
}

/// Written in place of the digits of an empty file.
const EMPTY_FILE: &str = "-";

/// The bytes of a file as one word of hex digits, also if there are none.
pub fn file_digits(file: &[u8]) -> String {
    match file {
        [] => EMPTY_FILE.to_string(),
        bytes => hex(bytes, ""),
    }
}

/// The bytes of a file in words, at most `shown_bytes` of them from its start.
pub fn file_in_words(file: &[u8], shown_bytes: usize) -> String {
    let length = file.len();
    let shown = hex(&file[..length.min(shown_bytes)], " ");
    if length > shown_bytes {
        format!("{length} bytes [{shown} ..]")
    } else {
        format!("bytes [{shown}]")
    }
}

/// Numbers with single spaces between them.
pub fn spaced(numbers: &[u64]) -> String {
    let words: Vec<String> = numbers.iter().map(u64::to_string).collect();
    words.join(" ")
}

/// What the tests of all suites ask.
#[cfg(test)]
pub mod suites_checked {
    use super::*;
    use crate::compare::tally::Tally;

    /// Asserts that each suite meets the answers of its row, at least as often as the row says.
    pub fn assert_each_meets<Q: Question>(suites: &[Suite<Q>], met: &[(&[&str], usize)]) {
        assert_eq!(suites.len(), met.len());
        for (Suite { name, cases, .. }, (labels, at_least)) in suites.iter().zip(met) {
            let tally = Tally::of(cases);
            for label in *labels {
                assert!(tally.count(label) >= *at_least, "{name}: {tally}");
            }
        }
    }

    /// Asserts that suites that are made twice ask the same cases.
    pub fn assert_same_cases<C: PartialEq>(once: &[Suite<C>], again: &[Suite<C>]) {
        assert_eq!(once.len(), again.len());
        for (once, again) in once.iter().zip(again) {
            assert!(once.cases == again.cases, "{}", once.name);
        }
    }
}

#[cfg(test)]
mod tests {
    use super::*;

    #[test]
    fn labels_tell_refusals_and_faults_apart() {
        assert_eq!(label_of("N 300 1 3\n"), "N");
        assert_eq!(label_of("R 1 7 9\n"), "R1");
        assert_eq!(label_of("R 12 7 37\n"), "R12");
        assert_eq!(label_of("F 3 7\n"), "F3");
        assert_eq!(label_of("A 1 1 1 0\n"), "A");
        assert_eq!(label_of("\n"), "");
    }

    #[test]
    fn hex_has_two_digits_a_byte() {
        assert_eq!(hex(&[0x01, 0xAC], " "), "01 AC");
        assert_eq!(hex(&[0x01, 0xAC], ""), "01AC");
        assert_eq!(hex(&[], " "), "");
    }

    #[test]
    fn file_is_one_word_even_if_empty() {
        assert_eq!(file_digits(&[0x01, 0xAC]), "01AC");
        assert_eq!(file_digits(&[]), "-");
    }

    #[test]
    fn words_show_so_many_bytes() {
        assert_eq!(file_in_words(&[0x01, 0x80], 2), "bytes [01 80]");
        assert_eq!(file_in_words(&[0x01, 0x80, 0x00], 2), "3 bytes [01 80 ..]");
        assert_eq!(file_in_words(&[], 2), "bytes []");
    }

    #[test]
    fn numbers_are_spaced_singly() {
        assert_eq!(spaced(&[1, 0, 4_000_000_000]), "1 0 4000000000");
        assert_eq!(spaced(&[]), "");
    }
}
