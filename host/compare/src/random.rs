//! A small pseudo-random source (SplitMix64), so that a desk is known by its seed alone.
//! No dependency: the numbers must be the same with every compiler and on every machine.

use std::ops::RangeInclusive;

#[derive(Clone, Debug)]
pub struct Random {
    state: u64,
}

impl Random {
    pub fn new(seed: u64) -> Random {
        Random { state: seed }
    }

    /// A source of its own for one purpose: changing how much one part draws leaves the others as they were.
    pub fn fork(&mut self) -> Random {
        Random::new(self.word64())
    }

    pub fn word64(&mut self) -> u64 {
        self.state = self.state.wrapping_add(0x9e37_79b9_7f4a_7c15);
        let mixed = (self.state ^ (self.state >> 30)).wrapping_mul(0xbf58_476d_1ce4_e5b9);
        let mixed = (mixed ^ (mixed >> 27)).wrapping_mul(0x94d0_49bb_1331_11eb);
        mixed ^ (mixed >> 31)
    }

    pub fn word(&mut self) -> u32 {
        (self.word64() >> 32) as u32
    }

    pub fn coin(&mut self) -> bool {
        self.word64() >> 63 == 1
    }

    /// True so many times in a hundred.
    pub fn percent(&mut self, times: u64) -> bool {
        self.within(0..=99) < times
    }

    /// A number of the range, both ends among them.
    pub fn within(&mut self, range: RangeInclusive<u64>) -> u64 {
        let (least, most) = (*range.start(), *range.end());
        match (most - least).checked_add(1) {
            Some(width) => least + self.word64() % width,
            None => self.word64(),
        }
    }

    pub fn index(&mut self, length: usize) -> usize {
        self.within(0..=length as u64 - 1) as usize
    }

    pub fn pick<T: Clone>(&mut self, choices: &[T]) -> T {
        choices[self.index(choices.len())].clone()
    }

    /// A number of the range, its ends and their neighbours more often than the rest.
    pub fn edgy(&mut self, range: RangeInclusive<u64>) -> u64 {
        let (least, most) = (*range.start(), *range.end());
        match self.within(0..=9) {
            0 | 1 => least,
            2 | 3 => most,
            4 => (least + 1).min(most),
            5 => most.saturating_sub(1).max(least),
            _ => self.within(range),
        }
    }

    /// A number of any size, those near a power of two more often than the rest.
    pub fn any_size(&mut self) -> u64 {
        let power = 1u64 << self.within(0..=63);
        match self.within(0..=4) {
            0 => power,
            1 => power - 1,
            2 => power.wrapping_neg(),
            3 => power | self.word64() & (power - 1),
            _ => self.word64(),
        }
    }

    pub fn noise(&mut self, bytes: &mut [u8]) {
        for part in bytes.chunks_mut(8) {
            let word = self.word64().to_le_bytes();
            part.copy_from_slice(&word[..part.len()]);
        }
    }
}

#[cfg(test)]
mod tests {
    use super::Random;

    #[test]
    fn equal_seeds_give_equal_numbers() {
        let (mut one, mut other) = (Random::new(7), Random::new(7));
        assert!((0..100).all(|_| one.word64() == other.word64()));
    }

    #[test]
    fn both_ends_of_a_range_are_met() {
        let mut random = Random::new(1);
        let drawn: Vec<u64> = (0..200).map(|_| random.within(3..=5)).collect();
        assert!((3..=5).all(|number| drawn.contains(&number)));
        assert!(drawn.iter().all(|number| (3..=5).contains(number)));
        assert_eq!(random.within(9..=9), 9);
        random.within(0..=u64::MAX);
    }
}
