//! Numbers that are drawn, the same ones for the same seed.

use crate::pcg::Pcg32;

/// What one client draws from.
pub struct Draw {
    random: Pcg32,
}

impl Draw {
    /// What is drawn from in this stream of the storm of this seed. A client's stream is its place.
    pub fn new(seed: u64, stream: u64) -> Self {
        Draw {
            random: Pcg32::new(seed, stream),
        }
    }

    /// A number below this one; 0 where that is 0, which takes a word too.
    pub fn below(&mut self, bound: u64) -> u64 {
        let word = u64::from(self.random.next());
        word.checked_rem(bound).unwrap_or(0)
    }

    /// A place of so many; 0 where there is none.
    pub fn place(&mut self, many: usize) -> usize {
        self.below(many as u64) as usize
    }

    /// One of a table, each as often as the weight beside it says. The last of them stands for a
    /// table without weights.
    pub fn weighted<T: Copy, const N: usize>(&mut self, table: &[(T, u64); N]) -> T {
        const { assert!(N > 0) };
        let mut left = self.below(table.iter().map(|(_, weight)| weight).sum());
        for &(entry, weight) in table {
            if left < weight {
                return entry;
            }
            left -= weight;
        }
        table[N - 1].0
    }
}

#[cfg(test)]
mod tests {
    use super::*;

    // The first words of the seed 42 and the stream 54 are 0xa15c02b7, 0x7b47f409 and 0xba1d3330,
    // which are 2,707,161,783, 2,068,313,097 and 3,122,475,824.

    #[test]
    fn numbers_are_remainders() {
        let mut draw = Draw::new(42, 54);
        assert_eq!(draw.below(1_000), 783);
        assert_eq!(draw.below(0), 0);
        assert_eq!(draw.place(100), 24);
    }

    #[test]
    fn entries_are_drawn_by_weight() {
        let table = [('a', 83), ('b', 0), ('c', 4), ('d', 13)];
        let mut draw = Draw::new(42, 54);
        // 83, 97 and 24 of a hundred
        assert_eq!(draw.weighted(&table), 'c');
        assert_eq!(draw.weighted(&table), 'd');
        assert_eq!(draw.weighted(&table), 'a');
    }
}
