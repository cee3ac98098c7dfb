//! Numbers at fault of every length and with every byte: the page shows their bytes.

use crate::numbers::faults::every_fault_at;
use crate::numbers::number::{MORE_FOLLOW, MOST_GROUPS};
use crate::numbers::writing::write_with_form;
use crate::periods::suites::whole_files::SMALLEST;

/// The place of the export, which is at fault.
const EXPORT: usize = 4;
/// The smallest last byte with which five groups are over the limit, whatever the others are.
const SMALLEST_LAST: u8 = 0x0F;
/// How much larger the last byte is from file to file.
const LAST_GROWS_BY: usize = 3;

/// Every fault of an export, and exports over the limit with every byte.
pub fn exports_at_fault() -> Vec<Vec<u8>> {
    let mut files = every_fault_at(&SMALLEST, EXPORT);
    let over_limit = exports_over_limit().into_iter();
    files.extend(over_limit.map(|form| write_with_form(&SMALLEST, EXPORT, &form)));
    files
}

/// Five groups each: every byte of a group that another follows is there once, and many last ones.
fn exports_over_limit() -> Vec<Vec<u8>> {
    let before_another: Vec<u8> = (MORE_FOLLOW..=u8::MAX).collect();
    let last = (SMALLEST_LAST..MORE_FOLLOW).step_by(LAST_GROWS_BY);
    before_another
        .chunks(MOST_GROUPS - 1)
        .zip(last)
        .map(|(groups, last)| [groups, &[last]].concat())
        .collect()
}

#[cfg(test)]
mod tests {
    use super::*;
    use crate::periods::inspection::page::inspect;
    use std::collections::BTreeSet;

    /// The bytes that the page shows of the number at fault, if there is one.
    fn shown(file: &[u8]) -> Option<String> {
        let page = inspect(file).to_string();
        let line = page.lines().find(|line| line.ends_with(" <--"))?;
        let (_, bytes) = line.strip_suffix(" <--")?.split_once(": ")?;
        Some(bytes.to_string())
    }

    #[test]
    fn every_byte_before_another_is_shown() {
        let shown: Vec<String> = exports_at_fault()
            .iter()
            .filter_map(|file| shown(file))
            .collect();
        for byte in MORE_FOLLOW..=u8::MAX {
            let digits = format!("{byte:02X}");
            assert!(shown.iter().any(|bytes| bytes.contains(&digits)));
        }
        assert!(shown.contains(&"80 81 82 83 0F".to_string()));
        assert!(shown.contains(&"FC FD FE FF 6C".to_string()));
    }

    #[test]
    fn every_count_of_bytes_is_shown() {
        let counts: BTreeSet<usize> = exports_at_fault()
            .iter()
            .filter_map(|file| shown(file))
            .map(|bytes| bytes.split(' ').count())
            .collect();
        assert_eq!(counts, (1..=5).collect());
    }
}
