//! A small generator of random numbers (SplitMix64): the same seed, the same numbers.

/// The generator's state.
pub struct Random(u64);

impl Random {
    /// A generator that starts at a seed.
    pub fn new(seed: u64) -> Random {
        Random(seed)
    }

    /// Any 64 bits.
    pub fn any(&mut self) -> u64 {
        self.0 = self.0.wrapping_add(0x9E37_79B9_7F4A_7C15);
        let mut z = self.0;
        z = (z ^ (z >> 30)).wrapping_mul(0xBF58_476D_1CE4_E5B9);
        z = (z ^ (z >> 27)).wrapping_mul(0x94D0_49BB_1331_11EB);
        z ^ (z >> 31)
    }

    /// A number below `end`, which is not 0.
    pub fn below(&mut self, end: u64) -> u64 {
        ((u128::from(self.any()) * u128::from(end)) >> 64) as u64
    }

    /// A number from 0 to `last`.
    pub fn up_to(&mut self, last: u64) -> u64 {
        match last.checked_add(1) {
            Some(end) => self.below(end),
            None => self.any(),
        }
    }

    /// A number of so many bits.
    pub fn bits(&mut self, width: u32) -> u64 {
        self.up_to(u64::MAX >> (64 - width))
    }

    /// Any byte.
    pub fn byte(&mut self) -> u8 {
        self.any() as u8
    }

    /// True once in `n` times.
    pub fn once_in(&mut self, n: u64) -> bool {
        self.below(n) == 0
    }

    /// One of a list's elements.
    pub fn pick<T: Copy>(&mut self, list: &[T]) -> T {
        list[self.index(list.len())]
    }

    /// An index into a list of this length.
    pub fn index(&mut self, length: usize) -> usize {
        self.below(length as u64) as usize
    }
}

#[cfg(test)]
mod tests {
    use super::*;

    /// The first numbers of the published generator from seed 0.
    #[test]
    fn known_numbers() {
        let mut random = Random::new(0);
        assert_eq!(random.any(), 0xE220_A839_7B1D_CDAF);
        assert_eq!(random.any(), 0x6E78_9E6A_A1B9_65F4);
    }

    #[test]
    fn limits_hold() {
        let mut random = Random::new(7);
        for _ in 0..1000 {
            assert!(random.below(3) < 3);
            assert!(random.up_to(5) <= 5);
            assert!(random.bits(2) < 4);
            random.bits(64);
        }
    }
}
