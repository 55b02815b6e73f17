//! A small generator of numbers that are the same for the same seed.

/// A splitmix generator: the same seed always gives the same numbers.
#[derive(Clone, Debug)]
pub struct Random {
    state: u64,
}

impl Random {
    /// A generator that starts from the seed.
    pub fn new(seed: u64) -> Random {
        Random { state: seed }
    }

    /// Any number.
    pub fn number(&mut self) -> u64 {
        self.state = self.state.wrapping_add(0x9e37_79b9_7f4a_7c15);
        let mut mixed = self.state;
        mixed = (mixed ^ (mixed >> 30)).wrapping_mul(0xbf58_476d_1ce4_e5b9);
        mixed = (mixed ^ (mixed >> 27)).wrapping_mul(0x94d0_49bb_1331_11eb);
        mixed ^ (mixed >> 31)
    }

    /// A number below the bound, which is not 0.
    pub fn below(&mut self, bound: usize) -> usize {
        (self.number() % bound as u64) as usize
    }

    /// A number from the least to the most.
    pub fn between(&mut self, least: usize, most: usize) -> usize {
        least + self.below(most - least + 1)
    }

    /// Yes once in so many times.
    pub fn one_in(&mut self, times: usize) -> bool {
        self.below(times) == 0
    }

    /// Any byte.
    pub fn byte(&mut self) -> u8 {
        self.number() as u8
    }

    /// So many bytes.
    pub fn bytes(&mut self, length: usize) -> Vec<u8> {
        (0..length).map(|_| self.byte()).collect()
    }

    /// Any byte but 0.
    pub fn nonzero(&mut self) -> u8 {
        self.between(1, 255) as u8
    }

    /// So many bytes, each of them other than 0 once in so many times.
    pub fn sparse(&mut self, length: usize, times: usize) -> Vec<u8> {
        (0..length)
            .map(|_| {
                if self.one_in(times) {
                    self.nonzero()
                } else {
                    0
                }
            })
            .collect()
    }

    /// A level below the number of levels.
    pub fn level(&mut self, levels: usize) -> u8 {
        self.below(levels) as u8
    }

    /// So many levels below the number of levels.
    pub fn levels(&mut self, levels: usize, length: usize) -> Vec<u8> {
        (0..length).map(|_| self.level(levels)).collect()
    }

    /// One of the values.
    pub fn pick<T: Copy>(&mut self, values: &[T]) -> T {
        values[self.below(values.len())]
    }
}
