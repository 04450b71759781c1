//! Numbers that depend on the seed alone.

/// A splitmix64 generator.
pub struct Random(u64);

impl Random {
    /// A stream for one function, so that its inputs don't depend on what other functions there are.
    pub fn new(seed: u64, name: &str) -> Random {
        Random(name.bytes().fold(seed, |state, byte| Random(state ^ u64::from(byte)).u64()))
    }

    pub fn u64(&mut self) -> u64 {
        self.0 = self.0.wrapping_add(0x9e37_79b9_7f4a_7c15);
        let mut z = self.0;
        z = (z ^ (z >> 30)).wrapping_mul(0xbf58_476d_1ce4_e5b9);
        z = (z ^ (z >> 27)).wrapping_mul(0x94d0_49bb_1331_11eb);
        z ^ (z >> 31)
    }

    pub fn below(&mut self, bound: u64) -> u64 {
        ((u128::from(self.u64()) * u128::from(bound)) >> 64) as u64
    }

    /// A number of at most so many bits: half of them drawn evenly, the others of any length.
    pub fn up_to_bits(&mut self, bits: u64) -> u64 {
        let length = if self.one_in(2) { bits } else { 1 + self.below(bits) };
        self.u64() >> (64 - length)
    }

    pub fn one_in(&mut self, n: u64) -> bool {
        self.below(n) == 0
    }

    pub fn pick<'a, T>(&mut self, list: &'a [T]) -> &'a T {
        &list[self.below(list.len() as u64) as usize]
    }
}
