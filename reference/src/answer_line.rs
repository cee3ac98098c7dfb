//! Answers of one line each.

use crate::questions::{label_of, Answer};

/// An answer of one line, with its newline.
#[derive(Debug, PartialEq, Eq)]
pub struct AnswerLine(pub String);

impl Answer for AnswerLine {
    fn label(&self) -> String {
        label_of(&self.0)
    }

    fn bytes(&self) -> Vec<u8> {
        self.0.as_bytes().to_vec()
    }

    fn length_in(&self, output: &[u8]) -> usize {
        let newline = output.iter().position(|&byte| byte == b'\n');
        newline.map_or(output.len(), |place| place + 1)
    }

    fn difference(&self, came: &[u8]) -> String {
        let expected = shown_line(self.0.as_bytes());
        match came {
            [] => format!("expected {expected}, came no line"),
            _ => format!("expected {expected}, came {}", shown_line(came)),
        }
    }
}

/// A line in quotes, with everything unusual in it made visible.
pub fn shown_line(line: &[u8]) -> String {
    match line.strip_suffix(b"\n") {
        Some(text) => format!("{:?}", String::from_utf8_lossy(text)),
        None => format!("{:?} without a newline", String::from_utf8_lossy(line)),
    }
}

#[cfg(test)]
mod tests {
    use super::*;

    fn line(text: &str) -> AnswerLine {
        AnswerLine(text.to_string())
    }

    #[test]
    fn line_ends_with_its_newline() {
        let answer = line("R 1 0 0\n");
        assert_eq!(answer.length_in(b""), 0);
        assert_eq!(answer.length_in(b"\n"), 1);
        assert_eq!(answer.length_in(b"N 300 0 2\nR 1 0 0\n"), 10);
        assert_eq!(answer.length_in(b"N 300"), 5);
    }

    #[test]
    fn words_show_both_lines() {
        let answer = line("N 300 0 2\n");
        assert_eq!(
            answer.difference(b"N 300 0 1\n"),
            r#"expected "N 300 0 2", came "N 300 0 1""#
        );
        assert_eq!(
            answer.difference(b"N 300 0 2"),
            r#"expected "N 300 0 2", came "N 300 0 2" without a newline"#
        );
        assert_eq!(
            answer.difference(b""),
            r#"expected "N 300 0 2", came no line"#
        );
    }
}
