//! Files as long as the buffer and longer, with whole numbers and faults around the cut.

use super::page::BUFFER_BYTES;
use super::refused_fields::with_field_not_allowed;
use crate::numbers::number::{padded, write_number, LIMIT, MORE_FOLLOW, MOST_GROUPS};
use crate::numbers::writing::write_numbers;
use crate::periods::suites::whole_files::{longest, SMALLEST};

/// The first byte behind the buffer.
const CUT: usize = BUFFER_BYTES;
/// A length far behind the cut.
const LONG: usize = 70_000;
/// The lengths of whole files: up to the cut, one and two bytes more, and many more.
const LENGTHS: [usize; 4] = [CUT, CUT + 1, CUT + 2, LONG];
/// The length of a file that is far longer than needed.
const ENDLESS: usize = 1_000_000;
/// How many bytes before the cut a fault ends that is shortly before it.
const SHORTLY_BEFORE: usize = 7;
/// A number of one byte.
const ONE_BYTE: u8 = 5;

/// All long files.
pub fn long_files() -> Vec<Vec<u8>> {
    [
        of_whole_numbers(),
        with_number_around_cut(),
        with_fault_around_cut(),
        of_one_byte_numbers_and_a_fault(),
        of_other_starts(),
        behind_refused_fields(),
    ]
    .concat()
}

/// What the files start with: a period after which all are numbers after the last, and a header
/// that is not allowed.
fn starts() -> [Vec<u8>; 2] {
    [write_numbers(&SMALLEST), write_numbers(&[0, 1, 1, 0])]
}

/// A number of five bytes.
fn five_bytes() -> Vec<u8> {
    write_number(LIMIT)
}

/// A file of this length: the start, then this number as often as fits, and before it as many
/// numbers of one byte as are needed for that.
fn filled(start: &[u8], number: &[u8], length: usize) -> Vec<u8> {
    let mut file = start.to_vec();
    while (length - file.len()) % number.len() > 0 {
        file.push(ONE_BYTE);
    }
    while file.len() < length {
        file.extend(number);
    }
    file
}

/// The smallest period and numbers of five bytes, `length` bytes in all.
fn filled_with_five_bytes(length: usize) -> Vec<u8> {
    filled(&write_numbers(&SMALLEST), &five_bytes(), length)
}

/// The file brought to the length, by cutting it or by numbers of one byte.
fn brought_to(mut file: Vec<u8>, length: usize) -> Vec<u8> {
    file.resize(length, ONE_BYTE);
    file
}

/// Every start filled with numbers of one byte and of five, in every length.
fn of_whole_numbers() -> Vec<Vec<u8>> {
    let mut files = Vec::new();
    for start in starts() {
        for number in [vec![ONE_BYTE], five_bytes()] {
            files.extend(LENGTHS.map(|length| filled(&start, &number, length)));
        }
    }
    files
}

/// Numbers of two and of five bytes that end at the cut, straddle it in every way, and start at
/// it: the file goes on, ends one byte behind the cut, or ends at it, even inside the number.
fn with_number_around_cut() -> Vec<Vec<u8>> {
    let mut files = Vec::new();
    for number in [write_number(300), five_bytes()] {
        for start in CUT - number.len()..=CUT {
            let file = [filled_with_five_bytes(start), number.clone()].concat();
            for length in [CUT, CUT + 1, LONG] {
                files.push(brought_to(file.clone(), length));
            }
        }
    }
    files
}

/// The forms of faults 2 and 3.
fn faults() -> [Vec<u8>; 5] {
    [
        padded(&[0], 2),
        padded(&[0], MOST_GROUPS),
        vec![MORE_FOLLOW; MOST_GROUPS],
        vec![u8::MAX; MOST_GROUPS],
        write_number(LIMIT + 1),
    ]
}

/// Each fault shortly before the cut, up to one byte before it, up to it, one byte past it and
/// right behind it, in files that go on; and in files that end with it.
fn with_fault_around_cut() -> Vec<Vec<u8>> {
    let mut files = Vec::new();
    for fault in faults() {
        let starting_at_cut = CUT + fault.len();
        for end in [CUT - SHORTLY_BEFORE, CUT - 1, CUT, CUT + 1, starting_at_cut] {
            let file = [filled_with_five_bytes(end - fault.len()), fault.clone()].concat();
            files.push(brought_to(file, LONG));
        }
        for end in [CUT, CUT + 1] {
            files.push([filled_with_five_bytes(end - fault.len()), fault.clone()].concat());
        }
    }
    files
}

/// Numbers of one byte, and up to the cut or one byte past it a number that is not the shortest
/// or that has too many groups.
fn of_one_byte_numbers_and_a_fault() -> Vec<Vec<u8>> {
    let start = write_numbers(&SMALLEST);
    let mut files = Vec::new();
    for fault in [padded(&[0], 2), vec![MORE_FOLLOW; MOST_GROUPS]] {
        for end in [CUT, CUT + 1] {
            let before = filled(&start, &[ONE_BYTE], end - fault.len());
            let file = [before, fault.clone()].concat();
            files.push(brought_to(file, LONG));
        }
    }
    files
}

/// Numbers of five bytes alone and behind the longest period; a file that has its fault at the
/// start; and one far longer than needed.
fn of_other_starts() -> Vec<Vec<u8>> {
    let longest = write_numbers(&longest());
    vec![
        filled(&[], &five_bytes(), CUT),
        filled(&[], &five_bytes(), LONG),
        filled(&longest, &five_bytes(), CUT + 1),
        vec![MORE_FOLLOW; LONG],
        brought_to(filled_with_five_bytes(LONG), ENDLESS),
    ]
}

/// Periods that are refused for a field, with numbers of one byte far behind the cut.
fn behind_refused_fields() -> Vec<Vec<u8>> {
    with_field_not_allowed()
        .map(|numbers| brought_to(write_numbers(&numbers), LONG))
        .to_vec()
}

#[cfg(test)]
mod tests {
    use super::*;
    use crate::periods::inspection::page::inspect;
    use crate::periods::inspection::page::pages_checked::closing;

    /// The last lines of the files' pages.
    fn ends(files: &[Vec<u8>]) -> Vec<String> {
        files
            .iter()
            .map(|file| inspect(file).end.to_string())
            .collect()
    }

    #[test]
    fn whole_numbers_end_with_the_file_or_are_cut() {
        // The starts have 10 numbers and 10 bytes, and 4 and 4. Of five-byte numbers, there
        // follow 65,525 bytes = 13,105 * 5 and so on.
        assert_eq!(
            ends(&of_whole_numbers()),
            [
                "E 65535 65535",
                "C 65535 65535",
                "C 65535 65535",
                "C 65535 65535",
                "E 13115 65535",
                "C 13115 65531",
                "C 13116 65532",
                "C 13115 65535",
                "E 65535 65535",
                "C 65535 65535",
                "C 65535 65535",
                "C 65535 65535",
                "E 13111 65535",
                "C 13111 65531",
                "C 13112 65532",
                "C 13111 65535",
            ]
        );
    }

    #[test]
    fn numbers_around_the_cut_are_whole_or_cut_or_end_with_the_file() {
        // Three lengths for each start. Before the number: 10 numbers of the smallest period,
        // as many of one byte as are needed, and those of five.
        assert_eq!(
            ends(&with_number_around_cut()),
            [
                "E 13118 65535",
                "C 13118 65535",
                "C 13118 65535", // 300 at 65,533
                "F 1 13118",
                "C 13118 65534",
                "C 13118 65534", // 300 at 65,534
                "E 13115 65535",
                "C 13115 65535",
                "C 13115 65535", // 300 at 65,535
                "E 13115 65535",
                "C 13115 65535",
                "C 13115 65535", // the limit at 65,530
                "F 1 13115",
                "C 13115 65531",
                "C 13115 65531", // at 65,531
                "F 1 13116",
                "C 13116 65532",
                "C 13116 65532", // at 65,532
                "F 1 13117",
                "C 13117 65533",
                "C 13117 65533", // at 65,533
                "F 1 13118",
                "C 13118 65534",
                "C 13118 65534", // at 65,534
                "E 13115 65535",
                "C 13115 65535",
                "C 13115 65535", // at 65,535
            ]
        );
    }

    #[test]
    fn faults_are_told_up_to_the_cut_and_not_behind_it() {
        let ends = ends(&with_fault_around_cut());
        let letters: Vec<Vec<&str>> = ends
            .chunks(7)
            .map(|chunk| chunk.iter().map(|end| &end[..3]).collect())
            .collect();
        let of_fault_2 = ["F 2", "F 2", "F 2", "C 1", "C 1", "F 2", "C 1"];
        let of_fault_3 = ["F 3", "F 3", "F 3", "C 1", "C 1", "F 3", "C 1"];
        assert_eq!(
            letters,
            [of_fault_2, of_fault_2, of_fault_3, of_fault_3, of_fault_3]
        );
        // A fault of two bytes that ends one byte behind the cut, and one that starts there.
        assert_eq!(ends[3], "C 13118 65534");
        assert_eq!(ends[4], "C 13115 65535");
    }

    #[test]
    fn other_files_end_as_they_should() {
        assert_eq!(
            ends(&of_one_byte_numbers_and_a_fault()),
            ["F 2 65533", "C 65534 65534", "F 3 65530", "C 65531 65531"]
        );
        // The longest period has 2,708 numbers in 7,029 bytes; two more numbers of one byte and
        // 11,700 of five come before the one that straddles the cut.
        assert_eq!(
            ends(&of_other_starts()),
            [
                "E 13107 65535",
                "C 13107 65535",
                "C 14410 65531",
                "F 3 0",
                "C 13115 65535",
            ]
        );
    }

    /// The refusals of all these files, if they are the same.
    fn refusal_of_all(files: &[Vec<u8>]) -> String {
        let refusal = |file: &Vec<u8>| inspect(file).refused.map(|refused| refused.to_string());
        let first = refusal(&files[0]);
        assert!(files.iter().all(|file| refusal(file) == first));
        first.expect("no period is so long")
    }

    #[test]
    fn files_are_refused_for_what_they_start_with() {
        let files = of_whole_numbers();
        let (behind_period, behind_header) = files.split_at(files.len() / 2);
        assert_eq!(refusal_of_all(behind_period), "R 9 10 10");
        assert_eq!(refusal_of_all(behind_header), "R 4 0 0");
        assert_eq!(refusal_of_all(&with_number_around_cut()), "R 9 10 10");
        assert_eq!(refusal_of_all(&with_fault_around_cut()), "R 9 10 10");
        let others: Vec<String> = of_other_starts().chunks(1).map(refusal_of_all).collect();
        assert_eq!(
            others,
            [
                "R 4 0 0",
                "R 4 0 0",
                "R 9 2708 7029",
                "R 3 0 0",
                "R 9 10 10"
            ]
        );
    }

    #[test]
    fn fields_that_are_not_allowed_are_refused_and_walked_past() {
        // 26 numbers in 37 bytes, then numbers of one byte.
        let closings: Vec<String> = behind_refused_fields()
            .iter()
            .map(|file| closing(file))
            .collect();
        assert_eq!(
            closings,
            [
                "R 5 1 1, C 65524 65535",
                "R 6 5 6, C 65524 65535",
                "R 7 10 16, C 65524 65535",
                "R 8 17 25, C 65524 65535",
            ]
        );
    }
}
