//! A text on standard input, and what a program writes for it.

use crate::questions::TextToWrite;
use crate::writing::form::Form;
use crate::writing::written::{write_text, Written};

/// One question: what is written for this text, if it is to be a period file?
#[derive(Clone, Debug, PartialEq, Eq)]
pub struct PeriodText(pub Vec<u8>);

/// One question: what is written for this text, if it is to be a sheet?
#[derive(Clone, Debug, PartialEq, Eq)]
pub struct SheetText(pub Vec<u8>);

impl TextToWrite for PeriodText {
    const LABELS: &'static [&'static str] = &[
        "A", "L", "T", "R1", "R3", "R4", "R5", "R6", "R7", "R8", "R9",
    ];

    fn text(&self) -> &[u8] {
        &self.0
    }

    fn written(&self) -> Written {
        write_text(&self.0, Form::Period)
    }

    fn in_words(&self) -> String {
        in_words(&self.0)
    }
}

impl TextToWrite for SheetText {
    const LABELS: &'static [&'static str] = &["A", "L", "T", "R1", "R3", "R5", "R9"];

    fn text(&self) -> &[u8] {
        &self.0
    }

    fn written(&self) -> Written {
        write_text(&self.0, Form::Sheet)
    }

    fn in_words(&self) -> String {
        in_words(&self.0)
    }
}

/// How many bytes of a text are shown.
const SHOWN_BYTES: usize = 2000;

/// A text in words, with everything unusual in it made visible.
fn in_words(text: &[u8]) -> String {
    let shown = &text[..text.len().min(SHOWN_BYTES)];
    let shown: String = shown.escape_ascii().to_string();
    if text.len() > SHOWN_BYTES {
        format!("text of {} bytes \"{shown}..\"", text.len())
    } else {
        format!("text \"{shown}\"")
    }
}

#[cfg(test)]
mod tests {
    use super::*;

    #[test]
    fn one_text_is_written_in_two_forms() {
        let text = b"1 7".to_vec();
        assert_eq!(PeriodText(text.clone()).written().bytes(), b"R 1 2 3\n");
        assert_eq!(SheetText(text).written().bytes(), [1, 7]);
    }

    #[test]
    fn words_show_the_text() {
        let text = PeriodText(b"1\r\n\xFF".to_vec());
        assert_eq!(text.in_words(), r#"text "1\r\n\xff""#);
        let words = SheetText(vec![b'7'; 70_000]).in_words();
        assert!(words.starts_with("text of 70000 bytes \"777"));
        assert!(words.ends_with("777..\""));
    }
}
