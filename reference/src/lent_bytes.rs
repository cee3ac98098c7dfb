//! Bytes that are lent to a call: what they are before it, and where they differ from what it must
//! leave.

/// The bytes before the call, by which those that the call leaves alone are recognised.
pub struct Pattern {
    /// The first byte.
    pub first: u8,
    /// What each byte is larger by than the one before, turning over.
    pub step: u8,
}

impl Pattern {
    /// `length` bytes, as they are before the call.
    pub fn bytes(&self, length: usize) -> Vec<u8> {
        let mut next = self.first;
        let mut bytes = Vec::with_capacity(length);
        for _ in 0..length {
            bytes.push(next);
            next = next.wrapping_add(self.step);
        }
        bytes
    }
}

/// The first byte that differs, in words; both must have the same length.
pub fn first_difference(what: &str, expected: &[u8], came: &[u8]) -> Option<String> {
    let place = (0..expected.len()).find(|&place| expected[place] != came[place])?;
    Some(format!(
        "{what} first differs at byte {place}: expected {:02X}, came {:02X}",
        expected[place], came[place]
    ))
}

#[cfg(test)]
mod tests {
    use super::*;

    #[test]
    fn each_byte_is_a_step_on() {
        let pattern = Pattern {
            first: 250,
            step: 3,
        };
        assert_eq!(pattern.bytes(4), [250, 253, 0, 3]);
        assert_eq!(pattern.bytes(0), []);
    }

    #[test]
    fn first_byte_that_differs_is_named() {
        assert_eq!(first_difference("table", &[1, 2], &[1, 2]), None);
        assert_eq!(
            first_difference("table", &[1, 2, 3], &[1, 255, 4]).as_deref(),
            Some("table first differs at byte 1: expected 02, came FF")
        );
    }
}
