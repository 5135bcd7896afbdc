//! Simple generators of numbers. The same seed gives the same numbers.

/// Xorshift, 64 bits, with a multiplication at the end.
#[derive(Clone, Debug)]
pub struct Random(u64);

impl Random {
    pub fn new(seed: u64) -> Random {
        // A state of zero would stay zero; neighbouring seeds are set apart.
        Random(seed.wrapping_add(1).wrapping_mul(0x9E37_79B9_7F4A_7C15) | 1)
    }

    /// Any 64-bit word.
    pub fn any(&mut self) -> u64 {
        self.0 ^= self.0 >> 12;
        self.0 ^= self.0 << 25;
        self.0 ^= self.0 >> 27;
        self.0.wrapping_mul(0x2545_F491_4F6C_DD1D)
    }

    /// Any 32-bit word.
    pub fn word(&mut self) -> u32 {
        (self.any() >> 32) as u32
    }

    /// A number below `limit`, which is not zero.
    pub fn below(&mut self, limit: u32) -> u32 {
        ((u64::from(self.word()) * u64::from(limit)) >> 32) as u32
    }

    /// A number from `low` to `high`.
    pub fn between(&mut self, low: u32, high: u32) -> u32 {
        low + self.below(high - low + 1)
    }

    /// True in one of `times` cases.
    pub fn one_in(&mut self, times: u32) -> bool {
        self.below(times) == 0
    }

    pub fn pick<'a, T>(&mut self, items: &'a [T]) -> &'a T {
        &items[self.below(items.len() as u32) as usize]
    }

    pub fn shuffle<T>(&mut self, items: &mut [T]) {
        for i in (1..items.len()).rev() {
            items.swap(i, self.below(i as u32 + 1) as usize);
        }
    }
}

/// A generator that is easy to restate in any language:
/// x = (x * 1664525 + 1013904223) mod 2^32.
#[derive(Clone, Debug)]
pub struct Lcg(pub u32);

impl Lcg {
    /// Steps one time and returns the new x.
    pub fn step(&mut self) -> u32 {
        self.0 = self.0.wrapping_mul(1_664_525).wrapping_add(1_013_904_223);
        self.0
    }

    /// Steps one time and returns (x / 65536) mod `limit`; `limit` is at most
    /// 65,536. The high half, because the low bits repeat soon.
    pub fn below(&mut self, limit: u32) -> u32 {
        (self.step() >> 16) % limit
    }
}

#[cfg(test)]
mod tests {
    use super::*;

    #[test]
    fn numbers_keep_to_their_limits() {
        let mut random = Random::new(1);
        for _ in 0..1000 {
            assert!(random.below(7) < 7);
            assert!((3..=5).contains(&random.between(3, 5)));
        }
    }

    #[test]
    fn shuffling_keeps_every_item() {
        let mut items: Vec<u32> = (0..100).collect();
        Random::new(2).shuffle(&mut items);
        assert!(items.windows(2).any(|two| two[0] > two[1]));
        items.sort_unstable();
        assert!(items.into_iter().eq(0..100));
    }

    #[test]
    fn the_simple_generator() {
        let mut lcg = Lcg(1);
        assert_eq!(lcg.step(), 1_015_568_748);
        assert_eq!(lcg.step(), 1_586_005_467);
    }
}
