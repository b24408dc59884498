//! Seeded numbers: the same seed gives the same run on every machine.

/// A run of numbers that its seed settles.
pub struct Chance(u64);

impl Chance {
    /// The run of a seed.
    pub fn new(seed: u64) -> Self {
        Chance(seed.wrapping_mul(0x9e37_79b9_7f4a_7c15) ^ 0x5361_7563_6577_6167)
    }

    /// The next 64 bits.
    pub fn bits(&mut self) -> u64 {
        self.0 = self.0.wrapping_add(0x9e37_79b9_7f4a_7c15);
        let mut bits = self.0;
        bits = (bits ^ bits >> 30).wrapping_mul(0xbf58_476d_1ce4_e5b9);
        bits = (bits ^ bits >> 27).wrapping_mul(0x94d0_49bb_1331_11eb);
        bits ^ bits >> 31
    }

    /// A number below `bound`, which is not 0.
    pub fn below(&mut self, bound: usize) -> usize {
        (self.bits() % bound as u64) as usize
    }

    /// A number from `least` to `most`.
    pub fn between(&mut self, least: usize, most: usize) -> usize {
        least + self.below(most - least + 1)
    }

    /// True this many times in a hundred.
    pub fn percent(&mut self, share: usize) -> bool {
        self.below(100) < share
    }

    /// One of some things.
    pub fn one<'a, T>(&mut self, things: &'a [T]) -> &'a T {
        &things[self.below(things.len())]
    }

    /// The carriers 0 to `count` − 1 in some order.
    pub fn order(&mut self, count: usize) -> Vec<u8> {
        let mut order: Vec<u8> = (0..count as u8).collect();
        for i in (1..count).rev() {
            order.swap(i, self.below(i + 1));
        }
        order
    }

    /// Some bytes, extremes often among them.
    pub fn bytes(&mut self, length: usize) -> Vec<u8> {
        (0..length).map(|_| if self.percent(25) { *self.one(&[0, 1, 254, 255]) } else { self.bits() as u8 }).collect()
    }

    /// Some 64-bit numbers, extremes often among them.
    pub fn sizes(&mut self, length: usize) -> Vec<u64> {
        (0..length).map(|_| if self.percent(50) { *self.one(&[0, 1, 77, u64::MAX]) } else { self.bits() }).collect()
    }
}
