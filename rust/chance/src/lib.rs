//! Random choices from a seed: the same seed gives the same choices, on every machine.

/// A stream of choices (splitmix64).
#[derive(Clone, Debug)]
pub struct Chance(u64);

impl Chance {
    /// The stream of a seed.
    pub fn new(seed: u64) -> Chance {
        Chance(seed)
    }

    /// The next 64 bits.
    pub fn bits(&mut self) -> u64 {
        self.0 = self.0.wrapping_add(0x9E37_79B9_7F4A_7C15);
        let mut z = self.0;
        z = (z ^ (z >> 30)).wrapping_mul(0xBF58_476D_1CE4_E5B9);
        z = (z ^ (z >> 27)).wrapping_mul(0x94D0_49BB_1331_11EB);
        z ^ (z >> 31)
    }

    /// A byte.
    pub fn byte(&mut self) -> u8 {
        self.bits().to_le_bytes()[0]
    }

    /// A number below `n`, which is not 0.
    pub fn below(&mut self, n: usize) -> usize {
        (self.bits() % n as u64) as usize
    }

    /// A number from `least` to `most`.
    pub fn between(&mut self, least: u64, most: u64) -> u64 {
        least + self.bits() % (most - least + 1)
    }

    /// True once in `n` times.
    pub fn one_in(&mut self, n: usize) -> bool {
        self.below(n) == 0
    }

    /// One of some values.
    pub fn pick<T: Copy>(&mut self, of: &[T]) -> T {
        of[self.below(of.len())]
    }
}

#[cfg(test)]
mod tests {
    use super::*;

    #[test]
    fn a_seed_gives_the_same_choices() {
        let (mut a, mut b, mut c) = (Chance::new(1), Chance::new(1), Chance::new(2));
        let bits: Vec<u64> = (0..8).map(|_| a.bits()).collect();
        assert!(bits.iter().all(|&x| x == b.bits()));
        assert!(bits.iter().any(|&x| x != c.bits()));
    }

    #[test]
    fn choices_stay_within_their_bounds() {
        let mut chance = Chance::new(3);
        for _ in 0..1000 {
            assert!(chance.below(7) < 7);
            assert!((5..=9).contains(&chance.between(5, 9)));
            assert!([1, 2].contains(&chance.pick(&[1, 2])));
        }
        assert!(chance.one_in(1));
    }
}
