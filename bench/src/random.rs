//! A small generator of pseudo-random numbers (splitmix64): the same seed gives the same cases.

#[derive(Clone)]
pub struct Random(u64);

impl Random {
    pub fn new(seed: u64) -> Self {
        Random(seed)
    }

    pub fn bits(&mut self) -> u64 {
        self.0 = self.0.wrapping_add(0x9E37_79B9_7F4A_7C15);
        let mut bits = self.0;
        bits = (bits ^ (bits >> 30)).wrapping_mul(0xBF58_476D_1CE4_E5B9);
        bits = (bits ^ (bits >> 27)).wrapping_mul(0x94D0_49BB_1331_11EB);
        bits ^ (bits >> 31)
    }

    /// A number below `end`, which is not 0.
    pub fn below(&mut self, end: usize) -> usize {
        (self.bits() % end as u64) as usize
    }

    /// A number from `low` to `high`.
    pub fn between(&mut self, low: usize, high: usize) -> usize {
        low + self.below(high - low + 1)
    }

    /// A number from `low` to `high`.
    pub fn within(&mut self, low: i32, high: i32) -> i32 {
        let span = (i64::from(high) - i64::from(low) + 1) as u64;
        (i64::from(low) + (self.bits() % span) as i64) as i32
    }

    /// True `times` in `of` times.
    pub fn chance(&mut self, times: usize, of: usize) -> bool {
        self.below(of) < times
    }

    pub fn coin(&mut self) -> bool {
        self.chance(1, 2)
    }

    pub fn one<'a, T>(&mut self, of: &'a [T]) -> &'a T {
        &of[self.below(of.len())]
    }

    pub fn byte(&mut self) -> u8 {
        self.bits() as u8
    }

    /// Any 32-bit number, the ends and small numbers more often.
    pub fn number(&mut self) -> i32 {
        match self.below(6) {
            0 => *self.one(&[i32::MIN, i32::MIN + 1, i32::MAX - 1, i32::MAX]),
            1 => *self.one(&[46_340, 46_341, -46_340, -46_341, 65_536, 1 << 30]),
            2 => self.bits() as i32,
            _ => self.within(-4, 9),
        }
    }

    /// Exchanges entries until any order is equally likely.
    pub fn shuffle<T>(&mut self, entries: &mut [T]) {
        for end in (1..entries.len()).rev() {
            entries.swap(end, self.below(end + 1));
        }
    }
}
