// A random generator for tests; it gives the same numbers in every run.

// The generator splitmix64.
pub struct Random(pub u64);

impl Random {
    // The next number.
    pub fn number(&mut self) -> u64 {
        self.0 = self.0.wrapping_add(0x9e37_79b9_7f4a_7c15);
        let mut z = self.0;
        z = (z ^ (z >> 30)).wrapping_mul(0xbf58_476d_1ce4_e5b9);
        z = (z ^ (z >> 27)).wrapping_mul(0x94d0_49bb_1331_11eb);
        z ^ (z >> 31)
    }

    // A number below the bound.
    pub fn below(&mut self, bound: usize) -> usize {
        (self.number() % bound as u64) as usize
    }

    // One of the items.
    pub fn pick<T: Copy>(&mut self, items: &[T]) -> T {
        items[self.below(items.len())]
    }

    // The numbers below the count, in any order.
    pub fn shuffled(&mut self, count: usize) -> Vec<usize> {
        let mut drawn: Vec<(u64, usize)> = (0..count).map(|i| (self.number(), i)).collect();
        drawn.sort();
        drawn.into_iter().map(|(_, i)| i).collect()
    }

    // Bytes of any value.
    pub fn bytes(&mut self, count: usize) -> Vec<u8> {
        (0..count).map(|_| self.number() as u8).collect()
    }

    // Numbers of 32 bits of any value.
    pub fn numbers(&mut self, count: usize) -> Vec<u32> {
        (0..count).map(|_| self.number() as u32).collect()
    }

    // Numbers of 64 bits of any value.
    pub fn words(&mut self, count: usize) -> Vec<u64> {
        (0..count).map(|_| self.number()).collect()
    }
}
