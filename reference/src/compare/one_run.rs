//! Compares many cases in one run of the program.

use super::comparison::Comparison;
use super::program::Program;
use crate::frames::write_frames;
use crate::questions::{Answer, Question};
use std::io;
use std::process::Stdio;

/// Puts all cases to the program in one run and compares its answers. If the program does not exit
/// with 0, that is a fault, whatever it answered.
pub fn compare_in_one_run<Q: Question>(cases: &[Q], program: &Program) -> io::Result<Comparison> {
    let output = program.run(&write_frames(cases), Stdio::inherit())?;
    let mut comparison = compare_output(cases, &output.stdout);
    if !output.status.success() {
        comparison.add_fault(format!("failed: the program ended with {}", output.status));
    }
    Ok(comparison)
}

/// Compares the output with our own answers, one after the other.
fn compare_output<Q: Question>(cases: &[Q], output: &[u8]) -> Comparison {
    let mut comparison = Comparison::new(Q::LABELS);
    let mut rest = output;
    for case in cases {
        let answer = case.answer();
        let (came, after) = rest.split_at(answer.length_in(rest));
        compare_answer(case, &answer, came, &mut comparison);
        rest = after;
    }
    if !rest.is_empty() {
        comparison.add_fault(format!("{} bytes after the last answer", rest.len()));
    }
    comparison
}

/// Takes in one case and the bytes that came for it.
fn compare_answer<Q: Question>(
    case: &Q,
    answer: &Q::Answer,
    came: &[u8],
    comparison: &mut Comparison,
) {
    let label = answer.label();
    let in_words = || format!("{}: {}", case.in_words(), answer.difference(came));
    if came.is_empty() {
        comparison.add_missing(&label, in_words);
    } else if came == answer.bytes() {
        comparison.add_equal(&label);
    } else {
        comparison.add_wrong(&label, in_words);
    }
}

#[cfg(test)]
mod tests {
    use super::*;
    use crate::numbers::question::NumberAt;

    /// One case for each of the four answers.
    fn four_cases() -> Vec<NumberAt> {
        let files: [&[u8]; 4] = [
            &[0xAC, 0x02],
            &[0x80],
            &[0x80, 0x00],
            &[0x81, 0xD0, 0xAC, 0xF3, 0x0E],
        ];
        let asked = files.map(|file| NumberAt {
            file: file.to_vec(),
            byte: 0,
        });
        asked.to_vec()
    }

    /// The report on the output for the four cases.
    fn report_on(output: &[u8]) -> String {
        let mut report = Vec::new();
        let written = compare_output(&four_cases(), output).write_report("four", &mut report);
        written.expect("a report is written to memory");
        String::from_utf8(report).expect("a report is text")
    }

    #[test]
    fn expected_lines_agree() {
        let output = b"N 300 0 2\nR 1 0 0\nR 2 0 0\nR 3 0 0\n";
        assert!(compare_output(&four_cases(), output).passed());
        assert_eq!(
            report_on(output),
            "four: 4 answers compared, 0 differ (N 1, R1 1, R2 1, R3 1)\n"
        );
    }

    #[test]
    fn wrong_lines_are_shown_with_what_was_asked() {
        let report = report_on(b"N 300 0 1\nR 1 0 0\nR 3 0 0\nR 3 0 0\n");
        let lines: Vec<&str> = report.lines().skip(1).collect();
        assert_eq!(
            lines,
            [
                r#"  case 1: bytes [AC 02], asked at 0: expected "N 300 0 2", came "N 300 0 1""#,
                r#"  case 3: bytes [80 00], asked at 0: expected "R 2 0 0", came "R 3 0 0""#,
            ]
        );
    }

    #[test]
    fn missing_line_differs() {
        let report = report_on(b"N 300 0 2\nR 1 0 0\nR 2 0 0\n");
        let lines: Vec<&str> = report.lines().skip(1).collect();
        assert_eq!(
            lines,
            [
                r#"  case 4: bytes [81 D0 AC F3 0E], asked at 0: expected "R 3 0 0", came no line"#,
                "  too few answers: 3 for 4 cases",
            ]
        );
    }

    #[test]
    fn line_too_many_is_a_fault() {
        let output = b"N 300 0 2\nR 1 0 0\nR 2 0 0\nR 3 0 0\n\n";
        assert!(!compare_output(&four_cases(), output).passed());
        assert!(report_on(output).ends_with("\n  1 bytes after the last answer\n"));
    }
}
