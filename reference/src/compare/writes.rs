//! Compares what the program writes when it is started for each text: any bytes.

use super::comparison::Comparison;
use super::program::Program;
use super::starts::ended_badly;
use crate::answer_line::shown_line;
use crate::lent_bytes::first_difference;
use crate::questions::TextToWrite;
use crate::writing::written::Written;
use std::io;
use std::process::{Output, Stdio};

/// Starts the program once for each text and compares what it writes.
pub fn compare_writes<T: TextToWrite>(texts: &[T], program: &Program) -> io::Result<Comparison> {
    let mut comparison = Comparison::new(T::LABELS);
    for text in texts {
        let output = program.run(text.text(), Stdio::piped())?;
        let expected = text.written();
        let label = expected.label();
        match difference(&expected, &output) {
            None => comparison.add_equal(&label),
            Some(difference) => {
                comparison.add_wrong(&label, || format!("{}: {difference}", text.in_words()));
            }
        }
    }
    Ok(comparison)
}

/// What is wrong with the output, if anything.
fn difference(expected: &Written, output: &Output) -> Option<String> {
    ended_badly(output).or_else(|| what_differs(expected, &output.stdout))
}

/// What was expected and what came instead, in words; nothing if it is the same.
fn what_differs(expected: &Written, came: &[u8]) -> Option<String> {
    let due = expected.bytes();
    if came == due {
        return None;
    }
    Some(match expected {
        Written::File(_) if came.len() == due.len() => first_difference("the file", &due, came)?,
        Written::File(_) => {
            let lengths = (due.len(), came.len());
            let shown = shown(came);
            format!("expected {} bytes, came {}: {shown}", lengths.0, lengths.1)
        }
        _ => format!("expected {}, came {}", shown(&due), shown(came)),
    })
}

/// How many bytes of what came are shown.
const SHOWN_BYTES: usize = 60;

/// The first bytes of what is written, as a line.
fn shown(written: &[u8]) -> String {
    match written {
        [] => "nothing".to_string(),
        _ => shown_line(&written[..written.len().min(SHOWN_BYTES)]),
    }
}

#[cfg(test)]
mod tests {
    use super::*;
    use crate::refusal::Reason;

    #[test]
    fn equal_bytes_do_not_differ() {
        for written in [
            Written::File(vec![]),
            Written::File(vec![1, 255]),
            Written::Refused(Reason::FileEnds.at(2).with_offset(3)),
        ] {
            assert_eq!(what_differs(&written, &written.bytes()), None);
        }
    }

    #[test]
    fn what_differs_is_said() {
        let file = Written::File(vec![1, 2, 3]);
        assert_eq!(
            what_differs(&file, &[1, 9, 3]).as_deref(),
            Some("the file first differs at byte 1: expected 02, came 09")
        );
        assert_eq!(
            what_differs(&file, b"R 1 0 0\n").as_deref(),
            Some(r#"expected 3 bytes, came 8: "R 1 0 0""#)
        );
        assert_eq!(
            what_differs(&file, b"").as_deref(),
            Some("expected 3 bytes, came 0: nothing")
        );
        let refused = Written::Refused(Reason::FileEnds.at(2).with_offset(3));
        assert_eq!(
            what_differs(&refused, b"R 1 2 4\n").as_deref(),
            Some(r#"expected "R 1 2 3", came "R 1 2 4""#)
        );
        assert_eq!(
            what_differs(&refused, b"R 1 2 3").as_deref(),
            Some(r#"expected "R 1 2 3", came "R 1 2 3" without a newline"#)
        );
    }
}
