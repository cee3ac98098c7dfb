//! One list spelt in many ways: with other spaces and line ends, remarks, zeros before numbers, and
//! more digits than any number has.

use crate::writing::text::text_of;

/// What may be between two numbers.
const BETWEEN: [&str; 12] = [
    " ",
    "  ",
    "\t",
    "\n",
    "\r",
    "\r\n",
    "\n\r",
    " \t \r\n\n ",
    "#\n",
    "# 1 2 3 \r",
    "#x\r\n",
    "##\n#\n",
];

/// The numbers with each of these between them, before the first and behind the last.
pub fn spaced_in_every_way(numbers: &[u64]) -> Vec<Vec<u8>> {
    let words: Vec<String> = numbers.iter().map(u64::to_string).collect();
    let mut texts = Vec::new();
    for between in BETWEEN {
        let text = words.join(between);
        texts.push(text.clone());
        texts.push(format!("{between}{text}{between}"));
    }
    texts.into_iter().map(String::into_bytes).collect()
}

/// The numbers with remarks where they can be.
pub fn with_remarks(numbers: &[u64]) -> Vec<Vec<u8>> {
    let text = text_of(numbers);
    let parts: [(&[u8], &[u8]); 8] = [
        (b"", b"#"),
        (b"", b"#x"),
        (b"", b" # no line end"),
        (b"", b"#\n#\r#"),
        (b"#\n", b""),
        (b"# 7 7 7\r", b"\n"),
        (b"#\r\n \t", b"#\r\n"),
        (b"# one\n# two\n\n", b"\n\n# three"),
    ];
    let around = parts.map(|(before, after)| [before, &text, after].concat());
    around.to_vec()
}

/// Counts of zeros before every number.
const ZEROS: [usize; 4] = [1, 2, 20, 40];

/// The numbers with zeros before each of them.
pub fn with_zeros(numbers: &[u64]) -> Vec<Vec<u8>> {
    let spelt = |zeros: usize| {
        let zeros = "0".repeat(zeros);
        let words: Vec<String> = numbers.iter().map(|n| format!("{zeros}{n}")).collect();
        words.join(" ").into_bytes()
    };
    ZEROS.into_iter().map(spelt).collect()
}

/// The most digits of a number.
const MOST_DIGITS: usize = 40;
/// Spellings of numbers where 64 bits end and where they would turn over, and at the limit.
const AT_TURNS: [&str; 14] = [
    "3999999999",
    "4000000000",
    "4000000001",
    "4294967295",
    "4294967296",
    "4294967303",
    "9223372036854775807",
    "9223372036854775808",
    "18446744073709551615",
    "18446744073709551616",
    "18446744073709551623",
    "184467440737095516167",
    "340282366920938463463374607431768211456",
    "340282366920938463463374607431768211463",
];

/// The numbers with the one at the place spelt with one to forty digits, as sevens and as a one before
/// zeros by turns, and where narrower numbers turn over.
pub fn with_many_digits(numbers: &[u64], place: usize) -> Vec<Vec<u8>> {
    let mut spellings: Vec<String> = AT_TURNS.map(String::from).to_vec();
    for digits in 1..=MOST_DIGITS {
        spellings.push(if digits % 2 == 1 {
            "7".repeat(digits)
        } else {
            format!("1{}", "0".repeat(digits - 1))
        });
    }
    let spelt = |spelling: &String| {
        let (before, after) = (&numbers[..place], &numbers[place + 1..]);
        let parts = [&text_of(before)[..], spelling.as_bytes(), &text_of(after)];
        parts.join(&b' ')
    };
    spellings.iter().map(spelt).collect()
}

#[cfg(test)]
mod tests {
    use super::*;
    use crate::numbers::number::LIMIT;
    use crate::writing::form::Form;
    use crate::writing::written::{write_text, Written};

    const SHEET: [u64; 4] = [3, 300, 0, LIMIT];

    #[test]
    fn spelling_does_not_matter() {
        let due = write_text(&text_of(&SHEET), Form::Sheet);
        assert!(matches!(due, Written::File(_)));
        let texts = [
            spaced_in_every_way(&SHEET),
            with_remarks(&SHEET),
            with_zeros(&SHEET),
        ];
        for text in texts.concat() {
            assert_eq!(write_text(&text, Form::Sheet), due, "{text:?}");
        }
    }

    #[test]
    fn many_digits_are_over_the_limit() {
        let texts = with_many_digits(&SHEET, 1);
        assert_eq!(texts.len(), 14 + 40);
        let labels: Vec<String> = texts
            .iter()
            .map(|text| write_text(text, Form::Sheet).label())
            .collect();
        // The first two at turns, and up to ten digits, of which the last number is 1,000,000,000.
        let accepted = labels.iter().filter(|label| *label == "A").count();
        assert_eq!(accepted, 2 + 10);
        assert_eq!(
            labels.iter().filter(|label| *label == "R3").count(),
            54 - 12
        );
    }
}
