//! A small seeded generator (splitmix64), so that a failing case can be made again from its seed.

pub struct Random {
    state: u64,
}

impl Random {
    pub fn new(seed: u64) -> Self {
        Self { state: seed }
    }

    /// 64 random bits.
    pub fn bits(&mut self) -> u64 {
        self.state = self.state.wrapping_add(0x9e37_79b9_7f4a_7c15);
        let mut mixed = self.state;
        mixed = (mixed ^ (mixed >> 30)).wrapping_mul(0xbf58_476d_1ce4_e5b9);
        mixed = (mixed ^ (mixed >> 27)).wrapping_mul(0x94d0_49bb_1331_11eb);
        mixed ^ (mixed >> 31)
    }

    pub fn coin(&mut self) -> bool {
        self.bits() >> 63 == 1
    }

    /// A number from low to high, both included.
    pub fn within(&mut self, low: i64, high: i64) -> i64 {
        assert!(low <= high, "no number from {low} to {high}");
        let count = u128::from(high.abs_diff(low)) + 1;
        let offset = (u128::from(self.bits()) * count) >> 64;
        low.wrapping_add_unsigned(offset as u64)
    }

    /// A number from 0, below the count.
    pub fn below(&mut self, count: usize) -> usize {
        let last = i64::try_from(count).expect("a count is small") - 1;
        self.within(0, last) as usize
    }

    pub fn one_of<T: Copy>(&mut self, choices: &[T]) -> T {
        choices[self.below(choices.len())]
    }

    pub fn fill(&mut self, bytes: &mut [u8]) {
        for part in bytes.chunks_mut(8) {
            let random_bytes = self.bits().to_le_bytes();
            part.copy_from_slice(&random_bytes[..part.len()]);
        }
    }

    /// A number of at most 0 to 63 bits, every limit as likely.
    pub fn of_any_length(&mut self) -> i64 {
        match self.within(0, 63) {
            0 => 0,
            length => (self.bits() >> (64 - length)) as i64,
        }
    }

    /// As above with a random sign; below zero it is the complement, so that i64::MIN is met too.
    pub fn signed_of_any_length(&mut self) -> i64 {
        let number = self.of_any_length();
        if self.coin() {
            !number
        } else {
            number
        }
    }

    /// A number from 0 to high, small ones as well as large ones.
    pub fn up_to(&mut self, high: i64) -> i64 {
        let number = self.of_any_length();
        if number <= high {
            number
        } else {
            self.within(0, high)
        }
    }
}

#[cfg(test)]
mod tests {
    use super::Random;

    #[test]
    fn bits_are_those_of_splitmix64() {
        let mut random = Random::new(1_234_567);
        let met: Vec<u64> = (0..3).map(|_| random.bits()).collect();
        let published = [
            6_457_827_717_110_365_317,
            3_203_168_211_198_807_973,
            9_817_491_932_198_370_423,
        ];
        assert_eq!(met, published);
    }

    #[test]
    fn a_range_is_met_to_both_ends_and_not_left() {
        let mut random = Random::new(2);
        let mut met = [0; 5];
        for _ in 0..1_000 {
            met[(random.within(-2, 2) + 2) as usize] += 1;
        }
        assert!(met.iter().all(|&count| count > 100), "{met:?}");
        assert_eq!(random.within(i64::MIN, i64::MIN), i64::MIN);
        assert_eq!(random.within(i64::MAX, i64::MAX), i64::MAX);
    }

    #[test]
    fn the_whole_range_has_both_signs() {
        let mut random = Random::new(3);
        let negative = (0..1_000)
            .filter(|_| random.within(i64::MIN, i64::MAX) < 0)
            .count();
        assert!((400..600).contains(&negative), "{negative}");
    }

    #[test]
    fn every_length_and_sign_is_met() {
        let mut random = Random::new(4);
        let mut lengths = [[0; 64]; 2];
        for _ in 0..100_000 {
            let number = random.signed_of_any_length();
            let magnitude = if number < 0 { !number } else { number };
            let length = 64 - magnitude.leading_zeros();
            lengths[usize::from(number < 0)][length as usize] += 1;
        }
        assert!(lengths.iter().flatten().all(|&count| count > 100));
    }

    #[test]
    fn up_to_keeps_its_limit_and_meets_it() {
        let mut random = Random::new(5);
        let met: Vec<i64> = (0..10_000).map(|_| random.up_to(9)).collect();
        assert!((0..=9).all(|number| met.contains(&number)));
        assert!(met.iter().all(|number| (0..=9).contains(number)));
    }

    #[test]
    fn every_byte_is_filled_with_every_value() {
        let mut random = Random::new(6);
        let mut met = [[false; 256]; 11];
        for _ in 0..10_000 {
            let mut bytes = [0; 11];
            random.fill(&mut bytes);
            for (met, byte) in met.iter_mut().zip(bytes) {
                met[usize::from(byte)] = true;
            }
        }
        assert!(met.as_flattened().iter().all(|&met| met));
    }
}
