//! The historian's call that writes period files, in C: what is asked, what it hands back, and the
//! suites of cases. Every run asks the same ones.

pub mod call;
mod every_number;
mod full_size;
mod handed;
mod room;
mod seeded_calls;

use super::samples::PERIODS;
use crate::numbers::number::{GROUP_BITS, MORE_FOLLOW};
use crate::numbers::writing::with_values;
use crate::periods::paper::{proved_files, WHOLE_PERIOD};
use crate::periods::suites::{limits, values};
use crate::questions::Suite;
use call::WriteCall;

/// How many seeded calls there are.
const SEEDED_CALLS: usize = 20_000;
/// How often the seeded calls must meet acceptance and each refusal at least.
const EACH_ANSWER_AT_LEAST: usize = 500;

/// All suites for the historian's call that writes.
pub fn write_suites() -> Vec<Suite<WriteCall>> {
    vec![
        Suite::new("historian write, lists of the paper", lists_of_paper()),
        Suite::new("historian write, the samples there and back", samples()),
        Suite::new(
            "historian write, every refusal at every number",
            every_number::refused_at_every_number(),
        ),
        Suite::new(
            "historian write, two faults side by side",
            every_number::two_faults(),
        ),
        Suite::new(
            "historian write, kinds with next segments, owners with classes",
            just_enough(values::fields_that_belong_together()),
        ),
        Suite::new(
            "historian write, limits at and one past",
            just_enough(limits::at_and_one_past()),
        ),
        Suite::new(
            "historian write, every length of the buffer",
            room::every_length(),
        ),
        Suite::new("historian write, numbers left over", room::left_over()),
        Suite::new("historian write, spare bytes", room::spare_bytes()),
        Suite::new(
            "historian write, amounts of every count of groups",
            room::amounts_of_every_length(),
        ),
        Suite::new(
            "historian write, full size accepted and refused",
            full_size::full_size(),
        ),
        Suite {
            each_answer_at_least: EACH_ANSWER_AT_LEAST,
            ..Suite::new(
                "historian write, seeded accepted and refused",
                seeded_calls::seeded_calls(SEEDED_CALLS),
            )
        },
    ]
}

/// The lists of the paper's own files, and of the whole period with faults of plain numbers.
fn lists_of_paper() -> Vec<WriteCall> {
    let mut calls = just_enough(proved_files());
    let whole_with = |place, value| with_values(&WHOLE_PERIOD, &[(place, value)]);
    for place in 0..WHOLE_PERIOD.len() {
        calls.extend(WriteCall::with_room_and_without(&whole_with(
            place,
            u64::MAX,
        )));
    }
    calls.extend(WriteCall::with_room_and_without(&[]));
    calls
}

/// The lists of the samples, with buffers of all lengths.
fn samples() -> Vec<WriteCall> {
    let lists = PERIODS.iter().map(|sample| groups_of(sample.file));
    lists.flat_map(|list| room::lengths_around(&list)).collect()
}

/// The calls with the lists of these files, each with a buffer just long enough.
fn just_enough(files: Vec<Vec<u8>>) -> Vec<WriteCall> {
    let lists = files.iter().map(|file| groups_of(file));
    lists.map(|list| WriteCall::just_enough(&list)).collect()
}

/// The numbers of a file, whatever they are: each ends with the group that no other follows. Nothing
/// of them is tested, as the list is all that is asked about; groups that are no whole number are
/// left out.
fn groups_of(file: &[u8]) -> Vec<u64> {
    let mut numbers = Vec::new();
    let (mut value, mut bits) = (0_u64, 0);
    for byte in file {
        let group = u64::from(byte % MORE_FOLLOW);
        value |= group.checked_shl(bits).unwrap_or(0);
        bits += GROUP_BITS as u32;
        if *byte < MORE_FOLLOW {
            numbers.push(value);
            (value, bits) = (0, 0);
        }
    }
    numbers
}

#[cfg(test)]
mod tests {
    use super::*;
    use crate::numbers::writing::write_numbers;
    use crate::questions::suites_checked::{assert_each_meets, assert_same_cases};
    use crate::questions::{Answer, Question};

    /// The answers that each suite must meet, and how often at least.
    const MET: [(&[&str], usize); 12] = [
        (&["A", "R1", "R3", "R4", "R5", "R7", "R9"], 1),
        (&["A", "R14"], 20),
        (WriteCall::LABELS, 20),
        (&["R3", "R4", "R5", "R6", "R7", "R8"], 5),
        (&["A", "R7", "R8"], 100),
        (&["A", "R5", "R6", "R7", "R8"], 1),
        (&["A", "R14"], 40),
        (&["R9"], 180),
        (&["A", "R1", "R9"], 100),
        (&["A", "R3", "R14"], 50),
        (&["A", "R1", "R3", "R8", "R9", "R14"], 20),
        (WriteCall::LABELS, EACH_ANSWER_AT_LEAST),
    ];
    /// The longest list and the largest buffer that a test program must hold.
    const LONGEST_LIST: usize = 32_768;
    const LARGEST_BUFFER: usize = 16_384;

    #[test]
    fn suites_meet_each_answer_they_can() {
        assert_each_meets(&write_suites(), &MET);
    }

    #[test]
    fn every_run_asks_the_same_cases() {
        assert_same_cases(&write_suites(), &write_suites());
    }

    #[test]
    fn lists_and_buffers_are_small_enough_for_a_test_program() {
        for WriteCall { list, buffer } in write_suites().iter().flat_map(|suite| &suite.cases) {
            assert!(list.len() <= LONGEST_LIST, "{}", list.len());
            assert!(*buffer <= LARGEST_BUFFER, "{buffer}");
        }
    }

    #[test]
    fn numbers_of_a_file_are_those_that_were_written() {
        let numbers = [0, 127, 128, 300, 4_000_000_001, 1 << 35, u64::MAX];
        assert_eq!(groups_of(&write_numbers(&numbers)), numbers);
        assert_eq!(groups_of(&[0x81, 0x00, 0x80]), [1]);
    }

    #[test]
    fn samples_come_back_as_they_were() {
        for sample in &PERIODS {
            let call = WriteCall::just_enough(&groups_of(sample.file));
            let handed = call.answer();
            assert_eq!(handed.label(), "A");
            assert!(handed.bytes().ends_with(sample.file));
        }
    }
}
