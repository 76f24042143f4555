//! Seeded chance (splitmix64): the same seed gives the same numbers anywhere.

pub struct Dice {
    state: u64,
}

impl Dice {
    pub fn new(seed: u64) -> Dice {
        Dice { state: seed }
    }

    fn next(&mut self) -> u64 {
        self.state = self.state.wrapping_add(0x9E37_79B9_7F4A_7C15);
        let mut z = self.state;
        z = (z ^ (z >> 30)).wrapping_mul(0xBF58_476D_1CE4_E5B9);
        z = (z ^ (z >> 27)).wrapping_mul(0x94D0_49BB_1331_11EB);
        z ^ (z >> 31)
    }

    /// A whole number from `least` to `most`, both included.
    pub fn pick(&mut self, least: i64, most: i64) -> i64 {
        let span = (most - least + 1) as u64;
        least + (self.next() % span) as i64
    }

    /// True once in `times`.
    pub fn once_in(&mut self, times: i64) -> bool {
        self.pick(1, times) == 1
    }

    pub fn index(&mut self, length: usize) -> usize {
        self.pick(0, length as i64 - 1) as usize
    }

    pub fn one_of<T: Copy>(&mut self, choices: &[T]) -> T {
        choices[self.index(choices.len())]
    }

    pub fn shuffle<T>(&mut self, items: &mut [T]) {
        for k in (1..items.len()).rev() {
            let other = self.index(k + 1);
            items.swap(k, other);
        }
    }

    /// `count` distinct numbers from 1 to `most`, rising.
    pub fn rising(&mut self, count: usize, most: i64) -> Vec<i64> {
        let mut all: Vec<i64> = (1..=most).collect();
        self.shuffle(&mut all);
        all.truncate(count);
        all.sort_unstable();
        all
    }
}

#[cfg(test)]
mod tests {
    use super::*;

    #[test]
    fn the_same_seed_gives_the_same_numbers() {
        let draw = |seed| {
            let mut dice = Dice::new(seed);
            (0..20).map(|_| dice.pick(-5, 5)).collect::<Vec<i64>>()
        };
        assert_eq!(draw(1), draw(1));
        assert_ne!(draw(1), draw(2));
        assert!(draw(3).iter().all(|x| (-5..=5).contains(x)));
    }

    #[test]
    fn rising_numbers_are_distinct() {
        let numbers = Dice::new(4).rising(16, 255);
        assert_eq!(numbers.len(), 16);
        assert!(numbers.windows(2).all(|w| w[0] < w[1]));
    }
}
