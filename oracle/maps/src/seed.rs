//! Numbers that follow from a seed (splitmix64).

#[derive(Clone, Debug)]
pub struct Seed(u64);

impl Seed {
    pub fn new(seed: u64) -> Seed {
        Seed(seed)
    }

    /// A further run of numbers with its own name.
    pub fn named(seed: u64, name: &str) -> Seed {
        let mut at = seed ^ 0xcbf2_9ce4_8422_2325;
        for byte in name.bytes() {
            at = (at ^ byte as u64).wrapping_mul(0x0000_0100_0000_01b3);
        }
        Seed(at)
    }

    #[inline]
    // no iterator: it has no end
    #[allow(clippy::should_implement_trait)]
    pub fn next(&mut self) -> u64 {
        self.0 = self.0.wrapping_add(0x9e37_79b9_7f4a_7c15);
        let mut z = self.0;
        z = (z ^ (z >> 30)).wrapping_mul(0xbf58_476d_1ce4_e5b9);
        z = (z ^ (z >> 27)).wrapping_mul(0x94d0_49bb_1331_11eb);
        z ^ (z >> 31)
    }

    /// A number below `limit`, which is not 0.
    #[inline]
    pub fn below(&mut self, limit: u64) -> u64 {
        ((self.next() as u128 * limit as u128) >> 64) as u64
    }

    /// True once in `times`.
    pub fn once_in(&mut self, times: u64) -> bool {
        self.below(times) == 0
    }
}
