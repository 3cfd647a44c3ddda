//! Numbers that look random and are the same in every run.

/// The splitmix64 generator.
pub struct Random {
    state: u64,
}

impl Random {
    /// The same seed gives the same numbers.
    pub fn new(seed: u64) -> Random {
        Random { state: seed }
    }

    /// Numbers for one of many generated things: seed and number give the same ones again.
    pub fn numbered(seed: u64, number: usize) -> Random {
        Random::new(seed ^ (number as u64).wrapping_mul(0xD134_2543_DE82_EF95))
    }

    /// The next 64 bits.
    pub fn bits(&mut self) -> u64 {
        self.state = self.state.wrapping_add(0x9E37_79B9_7F4A_7C15);
        let mut z = self.state;
        z = (z ^ (z >> 30)).wrapping_mul(0xBF58_476D_1CE4_E5B9);
        z = (z ^ (z >> 27)).wrapping_mul(0x94D0_49BB_1331_11EB);
        z ^ (z >> 31)
    }

    /// A number below the limit, which is not 0. The tests can do with the
    /// slight preference of the remainder for low numbers.
    pub fn below(&mut self, limit: usize) -> usize {
        (self.bits() % limit as u64) as usize
    }

    /// A number from the low to the high one, both included.
    pub fn between(&mut self, low: usize, high: usize) -> usize {
        low + self.below(high - low + 1)
    }

    pub fn one_in(&mut self, times: usize) -> bool {
        self.below(times) == 0
    }

    pub fn pick<T: Copy>(&mut self, from: &[T]) -> T {
        from[self.below(from.len())]
    }

    /// The place of the part that a number below the sum of the parts falls into.
    pub fn weighted(&mut self, parts: &[usize]) -> usize {
        let number = self.below(parts.iter().sum());
        let ends = parts.iter().scan(0, |end, part| {
            *end += part;
            Some(*end)
        });
        ends.take_while(|end| *end <= number).count()
    }

    /// A number below the count, one around it, or one that is another in fewer bits.
    pub fn around(&mut self, count: usize) -> u32 {
        let (inside, end, any) = (self.below(count.max(1)) as u32, count as u32, self.cell());
        let near = [inside, inside | 1, end.saturating_sub(1), end, end + 1, end + 2];
        let far = [inside + 0x100, inside + 0x1_0000, inside + 0x8000_0000, u32::MAX, any];
        let from = if self.one_in(2) { &near[..] } else { &far };
        self.pick(from)
    }

    pub fn byte(&mut self) -> u8 {
        (self.bits() >> 56) as u8
    }

    pub fn cell(&mut self) -> u32 {
        (self.bits() >> 32) as u32
    }

    pub fn bytes(&mut self, count: usize) -> Vec<u8> {
        (0..count).map(|_| self.byte()).collect()
    }

    pub fn cells(&mut self, count: usize) -> Vec<u32> {
        (0..count).map(|_| self.cell()).collect()
    }
}
