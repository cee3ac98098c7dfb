//! Texts of lists that are refused for every reason, at places near the start and far behind it,
//! between spaces and remarks that move the offsets.

use crate::numbers::number::LIMIT;
use crate::numbers::writing::with_values;
use crate::writing::form::Form;
use crate::writing::text::text_of;

/// The list with each of its numbers beside its bounds and over the limit, cut before each, and with
/// numbers left over: each text in another layout than the one before.
pub fn at_every_number(numbers: &[u64], form: Form) -> Vec<Vec<u8>> {
    let mut lists: Vec<Vec<u64>> = Vec::new();
    for place in 0..numbers.len() {
        lists.push(numbers[..place].to_vec());
        lists.push(with_values(numbers, &[(place, LIMIT + 1)]));
        if let Some(value) = outside_at(numbers, place, form) {
            lists.push(with_values(numbers, &[(place, value)]));
        }
    }
    for left_over in [&[0][..], &[1, 2], &[LIMIT + 1], &[7; 300]] {
        lists.push([numbers, left_over].concat());
    }
    let layouts = LAYOUTS.iter().cycle();
    let texts = lists.iter().zip(layouts);
    texts.map(|(list, layout)| layout.text_of(list)).collect()
}

/// A value just outside the field at this place, if the field has bounds of its own.
fn outside_at(numbers: &[u64], place: usize, form: Form) -> Option<u64> {
    let field = form.field_after(&numbers[..place])?;
    let above = field.allowed.end() + 1;
    let below = field.allowed.start().checked_sub(1);
    let outside = if place % 2 == 0 {
        below.unwrap_or(above)
    } else {
        above
    };
    (*field.allowed.end() < LIMIT).then_some(outside)
}

/// How a list is laid out in a text.
struct Layout {
    before: &'static str,
    between: &'static str,
    after: &'static str,
}

const LAYOUTS: [Layout; 5] = [
    Layout {
        before: "",
        between: " ",
        after: "\n",
    },
    Layout {
        before: "# typed\r\n",
        between: "\r\n",
        after: "\r\n",
    },
    Layout {
        before: "",
        between: " # 1 2 3\n",
        after: "",
    },
    Layout {
        before: "\t00",
        between: "\t 0",
        after: "#",
    },
    Layout {
        before: "\n\n",
        between: "\r",
        after: "     ",
    },
];

impl Layout {
    /// The text of the numbers in this layout.
    fn text_of(&self, numbers: &[u64]) -> Vec<u8> {
        if numbers.is_empty() {
            return [self.before.trim_end_matches('0'), self.after]
                .concat()
                .into_bytes();
        }
        let words: Vec<String> = numbers.iter().map(u64::to_string).collect();
        let text = words.join(self.between);
        [self.before, &text, self.after].concat().into_bytes()
    }
}

/// A text that is at fault as text, behind a list that would be refused too: the text comes first.
pub fn with_other_byte_behind(numbers: &[u64]) -> Vec<Vec<u8>> {
    let mut texts = Vec::new();
    for list in [&numbers[..1], numbers, &[u64::MAX], &[]] {
        texts.push([&text_of(list)[..], b" x"].concat());
        texts.push([b"#\n", &text_of(list)[..], b"\n-"].concat());
    }
    texts
}

#[cfg(test)]
mod tests {
    use super::*;
    use crate::periods::paper::WHOLE_PERIOD;
    use crate::writing::text::numbers_in;
    use crate::writing::written::{write_text, Written};

    #[test]
    fn every_list_is_refused_at_the_digit_where_its_number_starts() {
        for text in at_every_number(&WHOLE_PERIOD, Form::Period) {
            let refused = match write_text(&text, Form::Period) {
                Written::Refused(refused) => refused,
                other => panic!("{other:?}"),
            };
            let typed = numbers_in(&text).expect("the text has only numbers and remarks");
            match typed.get(refused.place) {
                Some(number) => assert_eq!(number.offset as u64, refused.offset),
                None => assert_eq!(text.len() as u64, refused.offset),
            }
        }
    }

    #[test]
    fn other_byte_comes_before_the_refusal_of_the_list() {
        for text in with_other_byte_behind(&WHOLE_PERIOD) {
            assert_eq!(write_text(&text, Form::Period).label(), "T");
        }
    }
}
