//! Files as long as a sheet can be, and files far longer.

use super::years::{largest_year, mixed_year, YEAR};
use crate::numbers::number::{write_number, MORE_FOLLOW};
use crate::sheets::sheet::sheet_of;

/// The length of files that are far longer than any sheet.
const FAR_LONGER: usize = 70_000;
/// Lengths at which a program may have its buffer end or a number of two bytes turns over.
const LENGTHS: [usize; 4] = [(1 << 16) - 1, 1 << 16, (1 << 16) + 1, FAR_LONGER];
/// How many bytes just pass the longest sheet.
const JUST_PAST: [usize; 3] = [0, 1, 2];
/// Bytes of which whole files are made.
const REPEATED: [u8; 5] = [0x00, 0x01, 0x02, MORE_FOLLOW, u8::MAX];
/// Bytes that fill files up: a number each, or none.
const FILLING: [u8; 2] = [0x00, MORE_FOLLOW];

/// The longest sheet with few bytes after it and with many; other sheets with many; and one byte
/// over and over, also after a count.
pub fn long_files() -> Vec<Vec<u8>> {
    let longest = sheet_of(&largest_year());
    let just_past = JUST_PAST.map(|more| filled_up(&longest, longest.len() + more, 0));
    let mut files = just_past.to_vec();
    for byte in FILLING {
        files.extend(LENGTHS.map(|length| filled_up(&longest, length, byte)));
        files.push(filled_up(&sheet_of(&mixed_year()), FAR_LONGER, byte));
        files.push(filled_up(&sheet_of(&[0]), FAR_LONGER, byte));
    }
    files.extend(REPEATED.map(|byte| vec![byte; FAR_LONGER]));
    for count in [YEAR, FAR_LONGER] {
        let count = write_number(count as u64);
        files.push(filled_up(&count, FAR_LONGER, 1));
    }
    files
}

/// The file filled up to the length with this byte.
fn filled_up(file: &[u8], length: usize, byte: u8) -> Vec<u8> {
    let mut filled = file.to_vec();
    filled.resize(length, byte);
    filled
}

#[cfg(test)]
mod tests {
    use super::*;
    use crate::sheets::figures::{figures_of, printed};

    #[test]
    fn long_files_are_refused_for_what_comes_after_or_at_their_start() {
        let files = long_files();
        let count = |line: &str| {
            let printed = files.iter().map(|file| printed(&figures_of(file)));
            printed.filter(|came| came == line).count()
        };
        assert_eq!(count("1464000000000 365 0 366 1\n"), 1);
        assert_eq!(count("R 9 367 1832\n"), 2 + 2 * 4);
        assert_eq!(count("R 9 367 368\n"), 2 + 1);
        assert_eq!(count("R 9 2 2\n"), 2 + 1);
        assert_eq!(count("R 9 3 3\n"), 1);
        assert_eq!(count("R 5 0 0\n"), 2);
        assert_eq!(count("R 3 0 0\n"), 2);
        assert_eq!(files.len(), 1 + 13 + 3 + 1 + 2 + 2);
    }
}
