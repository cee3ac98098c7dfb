//! The lengths of the historian's tables, in bytes and in numbers.

use crate::periods::accounts::Tables;

/// Bytes of a number in the historian's tables.
pub const NUMBER_BYTES: usize = 8;

/// How many bytes the two tables of the historian have.
#[derive(Clone, Copy, Debug, PartialEq, Eq)]
pub struct TableBytes {
    pub plant: usize,
    pub segment: usize,
}

impl TableBytes {
    /// The bytes of as many numbers and no spare ones.
    pub fn of(tables: Tables) -> Self {
        TableBytes {
            plant: tables.plant * NUMBER_BYTES,
            segment: tables.segment * NUMBER_BYTES,
        }
    }

    /// How many whole numbers the bytes hold.
    pub fn whole_numbers(self) -> Tables {
        Tables {
            plant: self.plant / NUMBER_BYTES,
            segment: self.segment / NUMBER_BYTES,
        }
    }
}

#[cfg(test)]
mod tests {
    use super::*;

    #[test]
    fn spare_bytes_hold_no_number() {
        for (bytes, numbers) in [(0, 0), (7, 0), (8, 1), (15, 1), (16, 2)] {
            let tables = TableBytes {
                plant: bytes,
                segment: bytes + NUMBER_BYTES,
            };
            let expected = Tables {
                plant: numbers,
                segment: numbers + 1,
            };
            assert_eq!(tables.whole_numbers(), expected);
        }
    }
}
