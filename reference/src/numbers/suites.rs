//! The suites of cases for number reading. Every run asks the same ones.

use super::number::{padded, write_number, LIMIT, MOST_GROUPS};
use super::question::NumberAt;
use crate::file_bytes::{all_bytes, each_byte_changed, every_value};
use crate::questions::Suite;
use crate::seeded::Seeded;
use std::collections::BTreeSet;
use std::iter;
use std::ops::RangeInclusive;

/// All suites for number reading.
pub fn number_suites() -> Vec<Suite<NumberAt>> {
    vec![
        Suite::new("numbers, all of one and two bytes", one_and_two_bytes()),
        Suite::new(
            "numbers, all bytes at the edges of three to six",
            bytes_at_edges(),
        ),
        Suite::new(
            "numbers, values at and around every edge",
            values_at_edges(),
        ),
        Suite::new(
            "numbers, asked in the file and far past it",
            asked_near_and_far(),
        ),
        Suite::new(
            "numbers, long files asked around their ends and past them",
            long_files_asked_at_ends(),
        ),
        Suite::new(
            "numbers, seeded whole and damaged",
            seeded_whole_and_damaged(),
        ),
    ]
}

/// Edge bytes of a group that another follows.
const EDGES_MORE_FOLLOW: [u8; 4] = [0x80, 0x81, 0xFE, 0xFF];
/// Edge bytes of a last group.
const EDGES_LAST: [u8; 3] = [0x00, 0x01, 0x7F];

/// All edge bytes, of last groups and of others.
fn edge_bytes() -> Vec<u8> {
    [&EDGES_LAST[..], &EDGES_MORE_FOLLOW[..]].concat()
}

/// The case that asks at the front of a file.
fn asked_at_front(file: Vec<u8>) -> NumberAt {
    NumberAt { file, byte: 0 }
}

// Suite: all of one and two bytes.

fn one_and_two_bytes() -> Vec<NumberAt> {
    let one = all_bytes().map(|byte| vec![byte]);
    let two = all_bytes().flat_map(|first| all_bytes().map(move |second| vec![first, second]));
    one.chain(two).map(asked_at_front).collect()
}

// Suite: all bytes at the edges of three to six.

/// Lengths of the patterns; the longest has a byte after the fifth group, which must not matter.
const PATTERN_LENGTHS: RangeInclusive<usize> = 3..=MOST_GROUPS + 1;
/// The byte after the fifth group in the longest patterns.
const BYTE_AFTER_FIFTH: u8 = 0xFF;

/// Each file is asked once, though many patterns give the same one.
fn bytes_at_edges() -> Vec<NumberAt> {
    let mut files = BTreeSet::new();
    for length in PATTERN_LENGTHS {
        files.extend(mixed_patterns(length));
        for pattern in plain_patterns(length) {
            files.extend(each_byte_changed(&pattern, every_value));
        }
    }
    files.into_iter().map(asked_at_front).collect()
}

/// Every mixture of edge bytes in which only the last group may be the end.
fn mixed_patterns(length: usize) -> Vec<Vec<u8>> {
    let mut patterns = vec![vec![]];
    for _ in 1..length.min(MOST_GROUPS) {
        patterns = each_followed_by(&patterns, &EDGES_MORE_FOLLOW);
    }
    brought_to_length(each_followed_by(&patterns, &edge_bytes()), length)
}

/// Each pattern followed by each of the bytes.
fn each_followed_by(patterns: &[Vec<u8>], bytes: &[u8]) -> Vec<Vec<u8>> {
    let mut longer = Vec::new();
    for pattern in patterns {
        for &byte in bytes {
            longer.push([&pattern[..], &[byte]].concat());
        }
    }
    longer
}

/// The limit, and one edge byte repeated before a last group; few enough to
/// replace every byte of each.
fn plain_patterns(length: usize) -> Vec<Vec<u8>> {
    let mut patterns = vec![write_number(LIMIT)];
    let groups = length.min(MOST_GROUPS);
    for more_follow in EDGES_MORE_FOLLOW {
        let all_but_last = vec![more_follow; groups - 1];
        patterns.extend(each_followed_by(&[all_but_last], &EDGES_LAST));
    }
    brought_to_length(patterns, length)
}

/// The patterns cut to the length, or filled up to it.
fn brought_to_length(mut patterns: Vec<Vec<u8>>, length: usize) -> Vec<Vec<u8>> {
    for pattern in &mut patterns {
        pattern.resize(length, BYTE_AFTER_FIFTH);
    }
    patterns
}

// Suite: values at and around every edge.

/// The highest power of two asked for: the first value that needs a sixth group.
const HIGHEST_POWER: u32 = 35;
/// How far below and above an edge the values go.
const AROUND_AN_EDGE: u64 = 2;
/// Numbers are padded with zero groups up to this many groups.
const MOST_PADDED_GROUPS: usize = 7;
/// Bytes before a number, which must not matter.
const BYTES_BEFORE: [&[u8]; 4] = [&[], &[0x00], &[0xFF], &[0x80, 0x80, 0x80]];
/// Bytes after a number, which matter only if the number was cut short.
const BYTES_AFTER: [&[u8]; 5] = [&[], &[0x00], &[0x7F], &[0x80], &[0xFF, 0xFF]];

fn values_at_edges() -> Vec<NumberAt> {
    let mut cases = Vec::new();
    for form in edge_values().into_iter().flat_map(forms_of) {
        for before in BYTES_BEFORE {
            for after in BYTES_AFTER {
                cases.push(NumberAt {
                    file: [before, &form, after].concat(),
                    byte: before.len() as u64,
                });
            }
        }
    }
    cases
}

/// The powers of two (the powers of 128 are among them) and the limit, with
/// the values around them; 0 and 1 are around the lowest power.
fn edge_values() -> BTreeSet<u64> {
    let powers = (0..=HIGHEST_POWER).map(|power| 1_u64 << power);
    let edges = powers.chain([LIMIT]);
    edges
        .flat_map(|edge| edge.saturating_sub(AROUND_AN_EDGE)..=edge + AROUND_AN_EDGE)
        .collect()
}

/// A value in its shortest form, padded to every greater length, and cut
/// short to every smaller one.
fn forms_of(value: u64) -> Vec<Vec<u8>> {
    let shortest = write_number(value);
    let padded = (shortest.len() + 1..=MOST_PADDED_GROUPS).map(|groups| padded(&shortest, groups));
    let cut = (0..shortest.len()).map(|groups| shortest[..groups].to_vec());
    padded.chain(cut).chain([shortest.clone()]).collect()
}

// Suite: asked in the file and far past it.

/// The longest file that is asked at each of its bytes.
const LONGEST_ASKED_FILE: usize = 8;
/// How far past the end of a file the near bytes go.
const NEAR_PAST_END: usize = 3;
/// Bytes at which a narrower or a signed number would turn over.
const TURNING_BYTES: [u64; 5] = [1 << 8, 1 << 16, 1 << 31, 1 << 32, 1 << 63];
/// How far below and above a turning byte the far bytes go: so far that one turned over would
/// fall on every byte of the file.
const AROUND_A_TURN: u64 = LONGEST_ASKED_FILE as u64;
/// Bytes repeated to fill a file, so that every answer is met.
const REPEATED: [&[u8]; 10] = [
    &[0x00],
    &[0x01],
    &[0x7F],
    &[0x80],
    &[0xFF],
    &[0x80, 0x00],
    &[0xFF, 0x01],
    &[0x80, 0xD0, 0xAC, 0xF3, 0x0E],
    &[0x81, 0xD0, 0xAC, 0xF3, 0x0E],
    &[0x80, 0x80, 0x80, 0x80, 0x00],
];
/// How many seeded files of each length are asked besides.
const SEEDED_FILES: usize = 200;
/// The seed of those files.
const SEED_OF_FILES: u64 = 0x5EED_0001;

/// Far bytes are asked of the repeated bytes only: no byte of the file should
/// matter there, and these show it if one does.
fn asked_near_and_far() -> Vec<NumberAt> {
    let mut seeded = Seeded::new(SEED_OF_FILES);
    let mut cases = Vec::new();
    for length in 0..=LONGEST_ASKED_FILE {
        for run in REPEATED {
            let file = repeated(run, length);
            cases.extend(asked_at_each(&file, near_bytes(length)));
            cases.extend(asked_at_each(&file, far_bytes()));
        }
        for _ in 0..SEEDED_FILES {
            let file = seeded_bytes(&mut seeded, length);
            cases.extend(asked_at_each(&file, near_bytes(length)));
        }
    }
    cases
}

/// A file of `length` bytes in which the run comes again and again.
fn repeated(run: &[u8], length: usize) -> Vec<u8> {
    run.iter().copied().cycle().take(length).collect()
}

/// The cases that ask at each of the bytes of one file.
fn asked_at_each(file: &[u8], bytes: impl Iterator<Item = u64>) -> Vec<NumberAt> {
    let asked_at = |byte| NumberAt {
        file: file.to_vec(),
        byte,
    };
    bytes.map(asked_at).collect()
}

/// Every byte of a file, its end, and some bytes past it.
fn near_bytes(length: usize) -> impl Iterator<Item = u64> {
    0..=(length + NEAR_PAST_END) as u64
}

/// The bytes around each turn, and the last of all 64-bit numbers.
fn far_bytes() -> impl Iterator<Item = u64> {
    let turns = TURNING_BYTES.into_iter();
    let around_turns = turns.flat_map(|turn| turn - AROUND_A_TURN..=turn + AROUND_A_TURN);
    around_turns.chain(u64::MAX - AROUND_A_TURN..=u64::MAX)
}

// Suite: long files asked around their ends and past them.

/// Lengths around those at which a narrower number would turn over or a number gets another
/// group, and a longer one.
const LENGTHS_OF_LONG_FILES: [usize; 7] = [127, 128, 129, 255, 256, 257, 1000];
/// How many bytes before the end of a long file are asked.
const NEAR_BEFORE_END: usize = 20;

/// The length, which goes with every byte past the end, is not a small number here.
fn long_files_asked_at_ends() -> Vec<NumberAt> {
    let mut cases = Vec::new();
    for length in LENGTHS_OF_LONG_FILES {
        for run in REPEATED {
            let file = repeated(run, length);
            let near = near_bytes(length).skip(length - NEAR_BEFORE_END);
            let far = TURNING_BYTES.into_iter().chain([u64::MAX]);
            cases.extend(asked_at_each(&file, near.chain(far)));
        }
    }
    cases
}

// Suite: seeded whole and damaged.

/// How many seeded cases there are.
const SEEDED_CASES: usize = 100_000;
/// The seed of these cases.
const SEED_OF_DAMAGE: u64 = 0x5EED_0002;
/// The longest file of most cases.
const LONGEST_FILE: usize = 40;
/// The longest file of the few long ones.
const LONGEST_LONG_FILE: usize = 4_000;
/// One case in this many has a long file.
const CASES_TO_A_LONG_ONE: usize = 500;
/// One case in this many asks at any byte, the others where the number starts.
const CASES_TO_ANY_BYTE: usize = 5;
/// One seeded byte in this many is an edge byte, the others are any byte.
const BYTES_TO_AN_EDGE: usize = 4;

/// What is done to a file that holds a whole number.
#[derive(Clone, Copy)]
enum Damage {
    Nothing,
    ByteReplaced,
    BitFlipped,
    ByteDropped,
    CutShort,
    AllReplaced,
}

/// All kinds of damage, each as likely as the others.
const DAMAGES: [Damage; 6] = [
    Damage::Nothing,
    Damage::ByteReplaced,
    Damage::BitFlipped,
    Damage::ByteDropped,
    Damage::CutShort,
    Damage::AllReplaced,
];

fn seeded_whole_and_damaged() -> Vec<NumberAt> {
    let mut seeded = Seeded::new(SEED_OF_DAMAGE);
    iter::repeat_with(|| seeded_case(&mut seeded))
        .take(SEEDED_CASES)
        .collect()
}

/// A number amid seeded bytes, damaged or not, mostly asked where it starts.
fn seeded_case(seeded: &mut Seeded) -> NumberAt {
    let longest = if seeded.one_in(CASES_TO_A_LONG_ONE) {
        LONGEST_LONG_FILE
    } else {
        LONGEST_FILE
    };
    let number = write_number(seeded_value(seeded));
    let start = seeded.up_to(longest - number.len());
    let length_after = seeded.up_to(longest - number.len() - start);

    let before = seeded_bytes(seeded, start);
    let after = seeded_bytes(seeded, length_after);
    let mut file = [before, number.clone(), after].concat();
    let hit = start + seeded.up_to(number.len() - 1);
    damage(&mut file, hit, seeded);

    let byte = if seeded.one_in(CASES_TO_ANY_BYTE) {
        seeded.up_to(file.len())
    } else {
        start
    };
    NumberAt {
        file,
        byte: byte as u64,
    }
}

/// Does some damage to the byte at `hit`, to the file from there on, or to all of it.
fn damage(file: &mut Vec<u8>, hit: usize, seeded: &mut Seeded) {
    match seeded.pick(&DAMAGES) {
        Damage::Nothing => {}
        Damage::ByteReplaced => file[hit] = seeded_byte(seeded),
        Damage::BitFlipped => file[hit] ^= 1 << seeded.up_to(u8::BITS as usize - 1),
        Damage::ByteDropped => {
            file.remove(hit);
        }
        Damage::CutShort => file.truncate(hit),
        Damage::AllReplaced => *file = seeded_bytes(seeded, file.len()),
    }
}

/// A value of any bit length that five groups hold, also above the limit.
fn seeded_value(seeded: &mut Seeded) -> u64 {
    let bits = seeded.up_to(HIGHEST_POWER as usize);
    seeded.bits() & ((1 << bits) - 1)
}

fn seeded_bytes(seeded: &mut Seeded, length: usize) -> Vec<u8> {
    iter::repeat_with(|| seeded_byte(seeded))
        .take(length)
        .collect()
}

/// A byte, now and then one of the edge bytes, since zero groups are rare otherwise.
fn seeded_byte(seeded: &mut Seeded) -> u8 {
    if seeded.one_in(BYTES_TO_AN_EDGE) {
        seeded.pick(&edge_bytes())
    } else {
        seeded.byte()
    }
}

#[cfg(test)]
mod tests {
    use super::*;
    use crate::compare::tally::Tally;
    use crate::numbers::number::{read_number, Reading};
    use crate::questions::suites_checked::assert_same_cases;

    #[test]
    fn every_run_asks_the_same_cases() {
        assert_same_cases(&number_suites(), &number_suites());
    }

    #[test]
    fn what_reads_in_any_case_is_the_written_form() {
        for Suite { name, cases, .. } in number_suites() {
            for NumberAt { file, byte } in cases {
                if let Reading::Number {
                    value,
                    offset,
                    next,
                } = read_number(&file, byte)
                {
                    let bytes = &file[offset as usize..next as usize];
                    assert_eq!(write_number(value), bytes, "{name}");
                    assert_eq!(offset, byte, "{name}");
                }
            }
        }
    }

    #[test]
    fn fault_has_the_asked_byte_as_its_offset_if_the_file_has_it() {
        for NumberAt { file, byte } in number_suites().into_iter().flat_map(|suite| suite.cases) {
            if let Reading::Refused { offset, .. } = read_number(&file, byte) {
                let length = file.len() as u64;
                assert_eq!(offset, if byte < length { byte } else { length });
            }
        }
    }

    #[test]
    fn long_files_are_asked_at_their_ends_and_far_past_them() {
        let cases = long_files_asked_at_ends();
        for length in LENGTHS_OF_LONG_FILES {
            let of_length = cases.iter().filter(|case| case.file.len() == length);
            let asked: BTreeSet<u64> = of_length.map(|case| case.byte).collect();
            let length = length as u64;
            for byte in [
                length - 20,
                length - 1,
                length,
                length + 3,
                1 << 32,
                u64::MAX,
            ] {
                assert!(asked.contains(&byte), "{byte} of {length}");
            }
        }
    }

    #[test]
    fn edge_values_hold_both_ends() {
        let values = edge_values();
        for value in [0, 1, 127, 128, 16_383, 16_384, LIMIT, LIMIT + 1, 1 << 35] {
            assert!(values.contains(&value), "value {value}");
        }
    }

    #[test]
    fn seeded_files_keep_their_lengths() {
        let cases = seeded_whole_and_damaged();
        assert_eq!(cases.len(), SEEDED_CASES);
        let long = |case: &&NumberAt| case.file.len() > LONGEST_FILE;
        let long_files = cases.iter().filter(long).count();
        assert!((1..SEEDED_CASES / 100).contains(&long_files));
        assert!(cases
            .iter()
            .all(|case| case.file.len() <= LONGEST_LONG_FILE));
        assert!(cases.iter().any(|case| case.file.is_empty()));
    }

    #[test]
    fn suites_meet_each_answer_they_can() {
        const AT_LEAST: usize = 100;
        for Suite { name, cases, .. } in number_suites() {
            let tally = Tally::of(&cases);
            for label in ["N", "R1", "R2"] {
                assert!(tally.count(label) >= AT_LEAST, "{name}: {tally}");
            }

            // Fewer groups than the most allowed cannot be too large.
            let has_room = |case: &NumberAt| case.file.len() >= MOST_GROUPS;
            if cases.iter().any(has_room) {
                assert!(tally.count("R3") >= AT_LEAST, "{name}: {tally}");
            }
        }
    }
}
