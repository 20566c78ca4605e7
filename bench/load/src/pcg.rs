//! The random number generator PCG32.

/// PCG XSH RR 64/32 with a chosen stream (`pcg32`), by M. E. O'Neill, "PCG: A Family of Simple Fast
/// Space-Efficient Statistically Good Algorithms for Random Number Generation", 2014, as in the
/// reference code at pcg-random.org.
pub struct Pcg32 {
    state: u64,
    increment: u64,
}

const MULTIPLIER: u64 = 6_364_136_223_846_793_005;

impl Pcg32 {
    /// The generator of this seed and stream, as `pcg32_srandom_r` makes it.
    pub fn new(seed: u64, stream: u64) -> Self {
        let mut generator = Pcg32 {
            state: 0,
            increment: stream << 1 | 1,
        };
        generator.step();
        generator.state = generator.state.wrapping_add(seed);
        generator.step();
        generator
    }

    /// The next word, as `pcg32_random_r` gives it.
    pub fn next(&mut self) -> u32 {
        let state = self.state;
        self.step();
        let word = ((state >> 18 ^ state) >> 27) as u32;
        word.rotate_right((state >> 59) as u32)
    }

    fn step(&mut self) {
        self.state = self
            .state
            .wrapping_mul(MULTIPLIER)
            .wrapping_add(self.increment);
    }
}

#[cfg(test)]
mod tests {
    use super::*;

    #[test]
    fn the_published_words_come() {
        // `pcg32-demo` of the reference code prints them for the seed 42 and the stream 54.
        let mut generator = Pcg32::new(42, 54);
        let words = [
            0xa15c_02b7,
            0x7b47_f409,
            0xba1d_3330,
            0x83d2_f293,
            0xbfa4_784b,
            0xcbed_606e,
        ];
        assert_eq!(words.map(|_| generator.next()), words);
    }

    #[test]
    fn the_first_word_is_that_of_the_definition() {
        // Seed 0 and stream 0 have the increment 1. Stepped from 0, the state is 1; stepped again,
        // it is the multiplier plus 1, 0x5851_f42d_4c95_7f2e. Its first five bits, 01011, are 11.
        // Shifted by 18 it is 0x1614_7d0b_5325, which makes 0x5851_e239_319e_2c0b of it; the 32
        // bits from bit 27 on are 0x0a3c_4726, turned right by 11 places 0xe4c1_4788.
        assert_eq!(Pcg32::new(0, 0).next(), 0xe4c1_4788);
    }
}
