//! A small generator, so that a seed gives the same cases everywhere.

/// Splitmix64.
pub struct Random {
    state: u64,
}

impl Random {
    pub fn new(seed: u64) -> Self {
        Random { state: seed }
    }

    pub fn word(&mut self) -> u64 {
        self.state = self.state.wrapping_add(0x9E37_79B9_7F4A_7C15);
        let mut word = self.state;
        word = (word ^ word >> 30).wrapping_mul(0xBF58_476D_1CE4_E5B9);
        word = (word ^ word >> 27).wrapping_mul(0x94D0_49BB_1331_11EB);
        word ^ word >> 31
    }

    pub fn byte(&mut self) -> u8 {
        self.word().to_be_bytes()[0]
    }

    pub fn bytes(&mut self, length: usize) -> Vec<u8> {
        (0..length).map(|_| self.byte()).collect()
    }

    /// A number from `first` to `last`, both included.
    pub fn between(&mut self, first: usize, last: usize) -> usize {
        // Slightly uneven for large spans, which test cases do not mind.
        let span = (last - first) as u64 + 1;
        first + (self.word() % span) as usize
    }

    pub fn coin(&mut self) -> bool {
        self.between(0, 1) == 1
    }

    /// Comes true once in so many times.
    pub fn one_in(&mut self, times: usize) -> bool {
        self.between(1, times) == 1
    }

    pub fn pick<T: Copy>(&mut self, from: &[T]) -> T {
        from[self.between(0, from.len() - 1)]
    }
}

#[cfg(test)]
mod tests {
    use super::*;

    #[test]
    fn known_first_words() {
        let mut random = Random::new(0);
        assert_eq!(random.word(), 0xE220_A839_7B1D_CDAF);
        assert_eq!(random.word(), 0x6E78_9E6A_A1B9_65F4);
    }

    #[test]
    fn stays_between_its_bounds() {
        let mut random = Random::new(7);
        let numbers: Vec<usize> = (0..200).map(|_| random.between(3, 5)).collect();
        assert!(numbers.iter().all(|number| (3..=5).contains(number)));
        assert!((3..=5).all(|number| numbers.contains(&number)));
    }

    #[test]
    fn picks_and_tosses_everything() {
        let mut random = Random::new(8);
        let picked: Vec<u8> = (0..100).map(|_| random.pick(&[4, 6])).collect();
        assert!(picked.contains(&4) && picked.contains(&6));
        let tossed: Vec<bool> = (0..100).map(|_| random.coin()).collect();
        assert!(tossed.contains(&true) && tossed.contains(&false));
        let rare = (0..1000).filter(|_| random.one_in(10)).count();
        assert!((50..200).contains(&rare), "{rare} times");
    }
}
