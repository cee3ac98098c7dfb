//! Texts as long as can be, and longer.

use crate::writing::text::{filled_up, MOST_BYTES};

/// How much longer than the longest some texts are.
const LONGER: [usize; 4] = [1, 2, 4096, 1_000_000];

/// The text filled up to the longest and past it, by spaces, by a remark, and by zeros; and long
/// texts that are at fault besides.
pub fn long_texts(text: &[u8]) -> Vec<Vec<u8>> {
    let with_tail = |tail: u8, length: usize| {
        let mut long = [text, b"\n#"].concat();
        long.resize(length, tail);
        long
    };
    let zeros = [&vec![b'0'; MOST_BYTES - text.len()][..], text].concat();
    let mut texts = vec![
        filled_up(text, MOST_BYTES - 1),
        filled_up(text, MOST_BYTES),
        with_tail(b'x', MOST_BYTES),
        with_tail(b'7', MOST_BYTES),
        with_tail(b'\n', MOST_BYTES),
        [b"0", &zeros[..]].concat(),
        zeros,
        filled_up(b"x", MOST_BYTES),
        filled_up(b"x", MOST_BYTES + 1),
        vec![b'7'; MOST_BYTES],
        vec![b'7'; MOST_BYTES + 1],
        vec![b'#'; MOST_BYTES],
        vec![b'#'; MOST_BYTES + 1],
    ];
    texts.extend(LONGER.map(|longer| filled_up(text, MOST_BYTES + longer)));
    texts.push(last_byte(filled_up(text, MOST_BYTES), b'x'));
    texts.push(last_byte(filled_up(text, MOST_BYTES + 1), b'x'));
    texts.push(last_byte(filled_up(text, MOST_BYTES), b'7'));
    texts
}

/// The text with another last byte.
fn last_byte(mut text: Vec<u8>, byte: u8) -> Vec<u8> {
    text.pop();
    text.push(byte);
    text
}

#[cfg(test)]
mod tests {
    use super::*;
    use crate::writing::form::Form;
    use crate::writing::written::write_text;

    #[test]
    fn text_is_too_long_from_one_byte_on() {
        for text in long_texts(b"1 7") {
            let label = write_text(&text, Form::Sheet).label();
            assert_eq!(label == "L", text.len() > 131_071, "{label}");
        }
        let labels: Vec<String> = long_texts(b"1 7")
            .iter()
            .map(|text| write_text(text, Form::Sheet).label())
            .collect();
        for label in ["A", "L", "T", "R1", "R3", "R9"] {
            assert!(labels.iter().any(|came| came == label), "{label}");
        }
    }
}
