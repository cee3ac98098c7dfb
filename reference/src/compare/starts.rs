//! Compares what the program prints when it is started for each file.

use super::comparison::Comparison;
use super::program::Program;
use crate::answer_line::shown_line;
use crate::questions::FileToPrint;
use std::io;
use std::process::{Output, Stdio};

/// Starts the program once for each file and compares what it prints.
pub fn compare_starts<F: FileToPrint>(files: &[F], program: &Program) -> io::Result<Comparison> {
    let mut comparison = Comparison::new(F::LABELS).counting_besides(F::LABELS_BESIDES);
    for file in files {
        let output = program.run(file.file(), Stdio::piped())?;
        let expected = file.printed();
        if let Some(label) = F::label_besides(&expected) {
            comparison.add_besides(&label);
        }
        let label = F::label_of(&expected);
        match difference(&expected, &output) {
            None => comparison.add_equal(&label),
            Some(difference) => {
                comparison.add_wrong(&label, || format!("{}: {difference}", file.in_words()));
            }
        }
    }
    Ok(comparison)
}

/// What is wrong with the output, if anything.
fn difference(expected: &str, output: &Output) -> Option<String> {
    ended_badly(output).or_else(|| first_line_that_differs(expected.as_bytes(), &output.stdout))
}

/// What is wrong with how the program ended, whatever it printed. It may exit with any status, as
/// long as it exits by itself, and says nothing on standard error.
pub fn ended_badly(output: &Output) -> Option<String> {
    if output.status.code().is_none() {
        return Some(format!("the program was ended, {}", output.status));
    }
    let line = lines_of(&output.stderr).next()?;
    Some(format!("standard error is not empty: {}", shown_line(line)))
}

/// The first line that differs in words, nothing if the texts are equal.
fn first_line_that_differs(expected: &[u8], came: &[u8]) -> Option<String> {
    let (mut expected, mut came) = (lines_of(expected), lines_of(came));
    let mut number = 1;
    loop {
        match (expected.next(), came.next()) {
            (None, None) => return None,
            (expected, came) if expected == came => number += 1,
            (expected, came) => {
                let (expected, came) = (shown(expected), shown(came));
                return Some(format!("line {number}: expected {expected}, came {came}"));
            }
        }
    }
}

/// The lines of a text with their newlines.
fn lines_of(text: &[u8]) -> impl Iterator<Item = &[u8]> {
    text.split_inclusive(|&byte| byte == b'\n')
}

/// A line in quotes, if there is one.
fn shown(line: Option<&[u8]>) -> String {
    line.map_or("no line".to_string(), shown_line)
}

#[cfg(test)]
mod tests {
    use super::*;

    #[test]
    fn equal_texts_do_not_differ() {
        for text in [&b""[..], b"R 1 0 0\n", b"P 1 0\nS 1 0\n"] {
            assert_eq!(first_line_that_differs(text, text), None);
        }
    }

    #[test]
    fn first_line_that_differs_is_shown() {
        let differs = |came: &[u8]| first_line_that_differs(b"P 1 7\nS 1 7\n", came);
        assert_eq!(
            differs(b"P 1 7\nS 1 8\n").as_deref(),
            Some(r#"line 2: expected "S 1 7", came "S 1 8""#)
        );
        assert_eq!(
            differs(b"P 1 7\nS 1 7").as_deref(),
            Some(r#"line 2: expected "S 1 7", came "S 1 7" without a newline"#)
        );
        assert_eq!(
            differs(b"").as_deref(),
            Some(r#"line 1: expected "P 1 7", came no line"#)
        );
        assert_eq!(
            differs(b"P 1 7\nS 1 7\n\n").as_deref(),
            Some(r#"line 3: expected no line, came """#)
        );
    }
}
