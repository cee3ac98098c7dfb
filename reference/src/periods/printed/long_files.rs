//! Files that are as long as can be, and longer.

use crate::numbers::number::MORE_FOLLOW;
use crate::numbers::writing::write_numbers;
use crate::periods::account_limits::longest::longest_accepted;
use crate::periods::paper::whole_period;
use crate::periods::suites::whole_files::longest;

/// How many bytes come after whole files.
const BYTES_AFTER: [usize; 3] = [1, 2, 100_000];
/// The bytes of which such runs and the endless files are: a number each, or none.
const BYTES_OF_RUNS: [u8; 2] = [1, MORE_FOLLOW];
/// The length of files of one byte that is repeated.
const ENDLESS: usize = 1_000_000;

/// The longest file, the longest accepted one and the whole period, alone and with bytes after
/// them; and files of one byte repeated.
pub fn long_files() -> Vec<Vec<u8>> {
    let mut files = Vec::new();
    for whole in [
        write_numbers(&longest()),
        write_numbers(&longest_accepted().numbers()),
        whole_period(),
    ] {
        for byte in BYTES_OF_RUNS {
            files.extend(BYTES_AFTER.map(|count| [&whole[..], &vec![byte; count]].concat()));
        }
        files.push(whole);
    }
    files.extend(BYTES_OF_RUNS.map(|byte| vec![byte; ENDLESS]));
    files
}

#[cfg(test)]
mod tests {
    use super::*;
    use crate::periods::printed::file::PrintedFile;
    use crate::questions::FileToPrint;

    /// How many of the files the line is printed for.
    fn printed_for(line: &str) -> usize {
        let files = long_files().into_iter().map(PrintedFile);
        files.filter(|file| file.printed() == line).count()
    }

    #[test]
    fn whole_files_are_refused_for_what_comes_after() {
        assert_eq!(printed_for("R 9 2708 7029\n"), 6, "the longest file");
        assert_eq!(printed_for("R 9 2708 5493\n"), 6, "the longest accepted");
        assert_eq!(printed_for("R 9 26 37\n"), 6);
        assert_eq!(printed_for("R 10 1 373\n"), 1, "the longest file alone");
    }

    #[test]
    fn endless_files_are_refused_at_their_start() {
        assert_eq!(printed_for("R 7 9 9\n"), 1);
        assert_eq!(printed_for("R 3 0 0\n"), 1);
    }
}
