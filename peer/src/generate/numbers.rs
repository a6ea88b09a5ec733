//! Numbers from a seed, the same on every machine.

/// SplitMix64.
#[derive(Clone, Debug)]
pub struct Numbers {
    state: u64,
}

impl Numbers {
    pub fn new(seed: u64) -> Numbers {
        Numbers { state: seed }
    }

    pub fn draw(&mut self) -> u64 {
        self.state = self.state.wrapping_add(0x9e37_79b9_7f4a_7c15);
        let mut mixed = self.state;
        mixed = (mixed ^ (mixed >> 30)).wrapping_mul(0xbf58_476d_1ce4_e5b9);
        mixed = (mixed ^ (mixed >> 27)).wrapping_mul(0x94d0_49bb_1331_11eb);
        mixed ^ (mixed >> 31)
    }

    pub fn word(&mut self) -> u16 {
        (self.draw() >> 48) as u16
    }

    /// From 0 to `limit` − 1; 0 for a limit of 0.
    pub fn below(&mut self, limit: u32) -> u32 {
        (((self.draw() >> 32) * u64::from(limit)) >> 32) as u32
    }

    /// From `low` to `high`, both included; `low` where `high` is not above.
    pub fn between(&mut self, low: u16, high: u16) -> u16 {
        let span = u32::from(high.saturating_sub(low)) + 1;
        low + self.below(span) as u16
    }

    pub fn one_in(&mut self, count: u32) -> bool {
        self.below(count) == 0
    }

    /// One of the choices, of which there is at least one.
    pub fn pick<T: Copy>(&mut self, choices: &[T]) -> T {
        choices[self.below(choices.len() as u32) as usize]
    }

    /// A word whose bits are set one time in 2^`rarity`.
    pub fn sparse_word(&mut self, rarity: u32) -> u16 {
        (0..rarity).fold(0xffff, |bits, _| bits & self.word())
    }
}

#[cfg(test)]
mod tests {
    use super::*;

    /// The published numbers of SplitMix64 for this seed.
    #[test]
    fn known_numbers() {
        let mut numbers = Numbers::new(1_234_567);
        let expected = [
            6_457_827_717_110_365_317,
            3_203_168_211_198_807_973,
            9_817_491_932_198_370_423,
            4_593_380_528_125_082_431,
            16_408_922_859_458_223_821,
        ];
        assert_eq!(expected.map(|_| numbers.draw()), expected);
    }

    #[test]
    fn ranges_reach_both_ends() {
        let mut numbers = Numbers::new(1);
        let drawn: Vec<u16> = (0..200).map(|_| numbers.between(3, 6)).collect();
        for value in 3..=6 {
            assert!(drawn.contains(&value));
        }
        assert!(drawn.iter().all(|value| (3..=6).contains(value)));
        assert_eq!(numbers.between(9, 2), 9);
        assert_eq!(numbers.between(0xffff, 0xffff), 0xffff);
        assert_eq!(numbers.below(0), 0);
        assert!((0..100).all(|_| numbers.sparse_word(0) == 0xffff));
    }
}
