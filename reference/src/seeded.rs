//! A small seeded generator (splitmix64), so that every run asks the same cases.

use std::ops::RangeInclusive;

/// What the state grows by at each draw.
const STEP: u64 = 0x9E37_79B9_7F4A_7C15;
/// The multipliers that mix the state into the drawn bits.
const FIRST_MIX: u64 = 0xBF58_476D_1CE4_E5B9;
const SECOND_MIX: u64 = 0x94D0_49BB_1331_11EB;
/// How far the bits are folded onto themselves before, between and after the multipliers.
const FIRST_FOLD: u32 = 30;
const SECOND_FOLD: u32 = 27;
const LAST_FOLD: u32 = 31;

/// The generator, with the state its next draw starts from.
pub struct Seeded {
    state: u64,
}

impl Seeded {
    pub fn new(seed: u64) -> Self {
        Seeded { state: seed }
    }

    /// The next 64 drawn bits.
    pub fn bits(&mut self) -> u64 {
        self.state = self.state.wrapping_add(STEP);
        let mut mixed = self.state;
        mixed = (mixed ^ (mixed >> FIRST_FOLD)).wrapping_mul(FIRST_MIX);
        mixed = (mixed ^ (mixed >> SECOND_FOLD)).wrapping_mul(SECOND_MIX);
        mixed ^ (mixed >> LAST_FOLD)
    }

    /// A number from 0 to `most`, both included.
    pub fn up_to(&mut self, most: usize) -> usize {
        self.within(0..=most as u64) as usize
    }

    /// A number of the range, which must not be empty.
    pub fn within(&mut self, range: RangeInclusive<u64>) -> u64 {
        let choices = range.end() - range.start() + 1;
        range.start() + self.bits() % choices
    }

    /// A number from 0 to `most`, small ones as likely as large ones.
    pub fn of_any_size(&mut self, most: u64) -> u64 {
        let unused_bits = self.within(u64::from(most.leading_zeros())..=u64::from(u64::BITS));
        let largest = u64::MAX.checked_shr(unused_bits as u32).unwrap_or(0);
        self.within(0..=largest.min(most))
    }

    /// True once in `turns` draws on average.
    pub fn one_in(&mut self, turns: usize) -> bool {
        self.up_to(turns - 1) == 0
    }

    /// One of the choices, which must not be empty.
    pub fn pick<T: Copy>(&mut self, choices: &[T]) -> T {
        choices[self.up_to(choices.len() - 1)]
    }

    /// Any byte, each as likely as the others.
    pub fn byte(&mut self) -> u8 {
        self.bits().to_le_bytes()[0]
    }

    /// A total cut into parts at seeded places.
    pub fn parts(&mut self, total: u64, parts: usize) -> Vec<u64> {
        let mut cuts: Vec<u64> = (1..parts).map(|_| self.within(0..=total)).collect();
        cuts.push(total);
        cuts.sort_unstable();
        let mut before = 0;
        let part_up_to = |cut| {
            let part = cut - before;
            before = cut;
            part
        };
        cuts.into_iter().map(part_up_to).collect()
    }
}

#[cfg(test)]
mod tests {
    use super::*;

    #[test]
    fn draws_are_those_published_for_splitmix64() {
        let mut seeded = Seeded::new(1_234_567);
        let drawn = [(); 3].map(|()| seeded.bits());
        let published = [
            6_457_827_717_110_365_317,
            3_203_168_211_198_807_973,
            9_817_491_932_198_370_423,
        ];
        assert_eq!(drawn, published);
    }

    #[test]
    fn draws_stay_within_their_bounds() {
        let mut seeded = Seeded::new(0);
        let drawn: Vec<usize> = (0..1000).map(|_| seeded.up_to(2)).collect();
        for wanted in 0..=2 {
            assert!(drawn.contains(&wanted));
        }
        assert!(drawn.iter().all(|&number| number <= 2));
    }

    #[test]
    fn numbers_of_any_size_reach_both_ends() {
        let mut seeded = Seeded::new(0);
        let drawn: Vec<u64> = (0..1000).map(|_| seeded.of_any_size(1000)).collect();
        assert!(drawn.iter().all(|&number| number <= 1000));
        assert!(drawn.contains(&0));
        assert!(drawn.iter().any(|&number| number > 900));
        let small = drawn.iter().filter(|&&number| number < 10).count();
        assert!(small > 300);
        assert_eq!(seeded.of_any_size(0), 0);
    }

    #[test]
    fn parts_add_up_to_the_total() {
        let mut seeded = Seeded::new(0);
        for count in 1..=16 {
            let parts = seeded.parts(1000, count);
            assert_eq!(parts.len(), count);
            assert_eq!(parts.iter().sum::<u64>(), 1000);
        }
    }
}
