//! The whole period of the paper and its proved cases.

use super::accounts::Tables;
use super::case::PeriodCase;
use crate::numbers::writing::{with_values, write_numbers};

/// The numbers of the whole period: header, two plants, two segments, two lines.
pub const WHOLE_PERIOD: [u64; 26] = [
    1, 2, 2, 2, //
    10_000, 1, 1_000_000, //
    5001, 1, 900_000, //
    1, 14_900, 2, //
    6, 14_899, 0, //
    0, 1, 4, 2000, 350, //
    1, 1, 3, 101, 2650,
];

/// Places of numbers that the proved cases change.
const FIRST_EXPORT: usize = 4;
const SECOND_EXPORT: usize = 7;
const FIRST_OUTFLOW: usize = 11;
const SECOND_KIND: usize = 13;
const SECOND_OUTFLOW: usize = 14;
const FIRST_QUANTITY: usize = 19;
const FIRST_FACTOR: usize = 20;

/// Some byte after the whole period.
const ONE_BYTE_MORE: u8 = 0x00;

/// Tables just large enough for the whole period.
pub const TABLES: Tables = Tables {
    plant: 16,
    segment: 10,
};

/// The bytes of the whole period.
pub fn whole_period() -> Vec<u8> {
    write_numbers(&WHOLE_PERIOD)
}

/// The whole period and the proved cases, in the order of the paper.
pub fn proved_cases() -> Vec<PeriodCase> {
    let mut cases: Vec<PeriodCase> = proved_files().into_iter().map(with_tables).collect();
    cases.push(PeriodCase {
        file: whole_period(),
        tables: Tables {
            plant: TABLES.plant - 1,
            ..TABLES
        },
    });
    cases
}

fn with_tables(file: Vec<u8>) -> PeriodCase {
    PeriodCase {
        file,
        tables: TABLES,
    }
}

/// The files of the whole period and of all proved cases that change it.
pub fn proved_files() -> Vec<Vec<u8>> {
    vec![
        whole_period(),
        vec![],
        vec![0x01],
        vec![0x80, 0x00],
        vec![0x81, 0xD0, 0xAC, 0xF3, 0x0E],
        vec![0x02],
        vec![0x01, 0x00],
        changed(&[(SECOND_KIND, 5)]),
        [whole_period(), vec![ONE_BYTE_MORE]].concat(),
        changed(&[(FIRST_QUANTITY, 4_000_000_000), (FIRST_FACTOR, 1000)]),
        changed(&[(FIRST_QUANTITY, 4_000_000_000), (FIRST_FACTOR, 1001)]),
        changed(&[(FIRST_OUTFLOW, 15_001)]),
        changed(&[(FIRST_OUTFLOW, 15_002)]),
        changed(&[
            (FIRST_EXPORT, 0),
            (SECOND_EXPORT, 0),
            (FIRST_OUTFLOW, 0),
            (SECOND_OUTFLOW, 0),
        ]),
    ]
}

/// The bytes of the whole period with some numbers changed.
fn changed(values: &[(usize, u64)]) -> Vec<u8> {
    write_numbers(&with_values(&WHOLE_PERIOD, values))
}

#[cfg(test)]
mod tests {
    use super::*;

    #[test]
    fn proved_cases_are_answered_as_the_paper_says() {
        let answers: Vec<String> = proved_cases().iter().map(PeriodCase::answer).collect();
        let expected = [
            "A 10000 9931 69 9931 879 9052 9 0 5001 4968 33 4471 90 4381 4 0 | \
             15001 14900 101 268 3 14900 14899 1 0 3",
            "R 1 0 0",
            "R 1 1 1",
            "R 2 0 0",
            "R 3 0 0",
            "R 4 0 0",
            "R 5 1 1",
            "R 7 15 23",
            "R 9 26 37",
            "A 10000 9931 69 9931 4000000179 0 0 3999990248 5001 4968 33 4471 90 4381 4 0 | \
             15001 14900 101 268 3 14900 14899 1 0 3",
            "R 10 1 24",
            "A 10000 9932 68 9932 879 9053 9 0 5001 4967 34 4470 90 4380 4 0 | \
             15001 15001 0 268 3 15001 14899 102 0 3",
            "R 12 1 37",
            "R 13 1 33",
            "R 14 16 37",
        ];
        assert_eq!(answers, expected);
    }
}
