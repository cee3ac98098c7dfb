//! Seeded texts: seeded lists with seeded spaces, remarks and zeros.

use crate::seeded::Seeded;
use crate::writing::form::Form;
use crate::writing::seeded_lists::seeded_lists;

/// What comes between numbers.
const BETWEEN: [&str; 8] = [" ", "\n", "\r\n", "\t", "\r", "   ", " # 7\n", "#\r"];
/// What comes before digits: zeros, mostly none.
const ZEROS: [&str; 6] = ["", "", "", "", "0", "000"];
/// One text in this many gets a byte that may be none of a text.
const TEXTS_TO_ONE_HIT: usize = 8;

/// Seeded texts of a form without end.
pub fn seeded_texts(form: Form, seed: u64) -> impl Iterator<Item = Vec<u8>> {
    let mut seeded = Seeded::new(seed);
    seeded_lists(form, seed).map(move |list| seeded_text(&list, &mut seeded))
}

/// The list as a text.
fn seeded_text(numbers: &[u64], seeded: &mut Seeded) -> Vec<u8> {
    let mut text = String::new();
    for number in numbers {
        text += seeded.pick(&BETWEEN);
        text += seeded.pick(&ZEROS);
        text += &number.to_string();
    }
    let mut text = text.into_bytes();
    if seeded.one_in(TEXTS_TO_ONE_HIT) {
        let offset = seeded.up_to(text.len());
        text.insert(offset, seeded.byte());
    }
    text
}
