//! Texts with any byte in them: beside numbers and inside them, in remarks, and at the end.

use crate::file_bytes::all_bytes;

/// The byte order mark that some programs put before a text, and that of two bytes a letter.
const BYTE_ORDER_MARK: &[u8] = &[0xEF, 0xBB, 0xBF];
const WIDE_BYTE_ORDER_MARK: &[u8] = &[0xFF, 0xFE];

/// The text with every byte there is put in before each of these offsets, one at a time.
pub fn every_byte_at(text: &[u8], offsets: &[usize]) -> Vec<Vec<u8>> {
    let at = |&offset: &usize| all_bytes().map(move |byte| with(text, offset, byte));
    offsets.iter().flat_map(at).collect()
}

/// The text with a byte put in before this offset.
fn with(text: &[u8], offset: usize, byte: u8) -> Vec<u8> {
    let (before, after) = text.split_at(offset);
    [before, &[byte], after].concat()
}

/// The text behind remarks that hold every byte a remark can: each with digits behind it on its
/// line, and all of them in one.
pub fn behind_remarks_of_every_byte(text: &[u8]) -> Vec<Vec<u8>> {
    let in_remark: Vec<u8> = all_bytes().filter(|byte| !b"\r\n".contains(byte)).collect();
    let one_each: Vec<u8> = in_remark
        .iter()
        .flat_map(|&byte| [b'#', byte, b'7', b' ', b'7', b'\n'])
        .collect();
    let in_one = [b"#", &in_remark[..], b" 7\r"].concat();
    vec![[&one_each, text].concat(), [&in_one, text].concat()]
}

/// The text with a byte order mark before it, in it, and in a remark.
pub fn with_byte_order_marks(text: &[u8]) -> Vec<Vec<u8>> {
    vec![
        [BYTE_ORDER_MARK, text].concat(),
        [WIDE_BYTE_ORDER_MARK, text].concat(),
        [text, BYTE_ORDER_MARK].concat(),
        [b"#", BYTE_ORDER_MARK, b"\n", text].concat(),
        BYTE_ORDER_MARK.to_vec(),
    ]
}

#[cfg(test)]
mod tests {
    use super::*;
    use crate::writing::form::Form;
    use crate::writing::written::write_text;
    use std::collections::BTreeMap;

    /// How often the texts are written as each label.
    fn labels(texts: &[Vec<u8>]) -> BTreeMap<String, usize> {
        let mut labels = BTreeMap::new();
        for text in texts {
            let label = write_text(text, Form::Sheet).label();
            *labels.entry(label).or_default() += 1;
        }
        labels
    }

    #[test]
    fn bytes_between_digits_are_mostly_refused() {
        let labels = labels(&every_byte_at(b"1 23", &[3]));
        assert_eq!(labels["T"], 256 - 10 - 4 - 1);
        assert_eq!(labels["A"], 10 + 1, "a digit, and the sign of a remark");
        assert_eq!(labels["R9"], 4, "a space");
    }

    #[test]
    fn remarks_hold_every_byte_but_line_ends() {
        let texts = behind_remarks_of_every_byte(b"1 23");
        assert_eq!(labels(&texts)["A"], texts.len());
        for text in &texts {
            assert!(all_bytes().all(|byte| byte == b'\r' || byte == b'\n' || text.contains(&byte)));
        }
    }

    #[test]
    fn byte_order_mark_is_no_space() {
        let labels = labels(&with_byte_order_marks(b"1 23"));
        assert_eq!(labels["T"], 4);
        assert_eq!(labels["A"], 1);
    }
}
