//! What comes of a text: the bytes of its file, or one line that says why there is none.

use super::form::Form;
use super::list::write_list;
use super::text::{numbers_in, TextFault, TypedNumber, MOST_BYTES};
use crate::refusal::Refused;

/// What is written for a text.
#[derive(Clone, Debug, PartialEq, Eq)]
pub enum Written {
    /// The bytes of the file.
    File(Vec<u8>),
    /// The text cannot be taken apart.
    Unread(TextFault),
    /// Its numbers are refused; the offset is that of a byte in the text.
    Refused(Refused),
}

impl Written {
    /// All that is written, and nothing else.
    pub fn bytes(&self) -> Vec<u8> {
        match self {
            Written::File(file) => file.clone(),
            Written::Unread(TextFault::TooLong) => format!("L {MOST_BYTES}\n").into_bytes(),
            Written::Unread(TextFault::OtherByte { offset, byte }) => {
                format!("T {offset} {byte}\n").into_bytes()
            }
            Written::Refused(refused) => format!("{refused}\n").into_bytes(),
        }
    }

    /// What it is counted as.
    pub fn label(&self) -> String {
        match self {
            Written::File(_) => "A".to_string(),
            Written::Unread(TextFault::TooLong) => "L".to_string(),
            Written::Unread(TextFault::OtherByte { .. }) => "T".to_string(),
            Written::Refused(refused) => format!("R{}", refused.reason as u8),
        }
    }
}

/// What must be written for this text, if it is to be a file of this form.
pub fn write_text(text: &[u8], form: Form) -> Written {
    let typed = match numbers_in(text) {
        Ok(typed) => typed,
        Err(fault) => return Written::Unread(fault),
    };
    let numbers: Vec<u64> = typed.iter().map(|number| number.value).collect();
    match write_list(&numbers, form) {
        Ok(file) => Written::File(file),
        Err(placed) => {
            let offset = offset_of(&typed, placed.place, text.len());
            Written::Refused(placed.with_offset(offset as u64))
        }
    }
}

/// Where in the text the number at this place begins; if there is none, where the text ends.
fn offset_of(typed: &[TypedNumber], place: usize, length: usize) -> usize {
    typed.get(place).map_or(length, |number| number.offset)
}

#[cfg(test)]
mod tests {
    use super::*;

    /// What is written for a text, which must not be a file.
    fn line(text: &str, form: Form) -> String {
        let written = write_text(text.as_bytes(), form);
        assert!(!matches!(written, Written::File(_)), "{text}");
        String::from_utf8(written.bytes()).expect("a line is text")
    }

    #[test]
    fn file_is_written_without_anything_else() {
        let written = write_text(b"1 1 1 0 # no lines\n300 1 0\r\n6 0 0", Form::Period);
        assert_eq!(written.bytes(), [1, 1, 1, 0, 0xAC, 0x02, 1, 0, 6, 0, 0]);
        assert_eq!(written.label(), "A");
        assert_eq!(write_text(b"1 10", Form::Sheet).bytes(), [1, 10]);
    }

    #[test]
    fn refusal_has_the_first_digit_of_its_number() {
        assert_eq!(line("", Form::Period), "R 1 0 0\n");
        assert_eq!(line("# x\n", Form::Period), "R 1 0 4\n");
        assert_eq!(line("1 \n", Form::Period), "R 1 1 3\n");
        assert_eq!(line(" 1  4000000001", Form::Period), "R 3 1 4\n");
        assert_eq!(line(" 2 x", Form::Period), "T 3 120\n");
        assert_eq!(line(" 02", Form::Period), "R 4 0 1\n");
        assert_eq!(line("1\n0017", Form::Period), "R 5 1 2\n");
        assert_eq!(
            line("1 1 1 0 0 1 0 6 0 0 \t 7", Form::Period),
            "R 9 10 22\n"
        );
        assert_eq!(line("1 1 1 0 0 2", Form::Period), "R 6 5 10\n");
        assert_eq!(line("1 1 1 0 0 1 0 5 0 0", Form::Period), "R 7 9 18\n");
        assert_eq!(line("1 1 1 1 0 1 0 6 0 0 2", Form::Period), "R 8 10 20\n");
    }

    #[test]
    fn sheets_are_refused_too() {
        assert_eq!(line("2 7", Form::Sheet), "R 1 2 3\n");
        assert_eq!(line("1 99999999999999999999999", Form::Sheet), "R 3 1 2\n");
        assert_eq!(line("367 7", Form::Sheet), "R 5 0 0\n");
        assert_eq!(line("1 7 8", Form::Sheet), "R 9 2 4\n");
    }

    #[test]
    fn length_comes_first_then_bytes_then_numbers() {
        let long = "x".repeat(131_072);
        assert_eq!(line(&long, Form::Period), "L 131071\n");
        assert_eq!(line("9 9 9 é", Form::Period), "T 6 195\n");
    }

    #[test]
    fn labels_name_what_is_wrong() {
        let label = |text: &str| write_text(text.as_bytes(), Form::Sheet).label();
        assert_eq!(label("1 7"), "A");
        assert_eq!(label("x"), "T");
        assert_eq!(label("1"), "R1");
        assert_eq!(label(&" ".repeat(200_000)), "L");
    }
}
