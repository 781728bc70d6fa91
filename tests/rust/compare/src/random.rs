// A small generator of random numbers (splitmix64), the same for the same seed.
// Paper: nothing.
// Words are often near an edge, where arithmetic and addresses are likely to be wrong.

pub struct Random(u64);

const EDGES: [u32; 14] = [
    0,
    1,
    2,
    7,
    0xFF,
    0xFFBF,
    0xFFC0,
    0xFFFF,
    0x7FFF_FFFF,
    0x8000_0000,
    0x8000_0001,
    0xFFFF_FFFF,
    0xFFFF_FFFE,
    0xFFFF_FFC0,
];

impl Random {
    pub fn new(seed: u64) -> Random {
        let mut random = Random(seed ^ 0x5DEE_CE66_D123_4567);
        random.next();
        random
    }

    pub fn next(&mut self) -> u64 {
        self.0 = self.0.wrapping_add(0x9E37_79B9_7F4A_7C15);
        let mut z = self.0;
        z = (z ^ z >> 30).wrapping_mul(0xBF58_476D_1CE4_E5B9);
        z = (z ^ z >> 27).wrapping_mul(0x94D0_49BB_1331_11EB);
        z ^ z >> 31
    }

    /// 0 to `limit` - 1.
    pub fn below(&mut self, limit: u64) -> u64 {
        self.next() % limit
    }

    /// `low` to `high`, both included.
    pub fn between(&mut self, low: u64, high: u64) -> u64 {
        low + self.below(high - low + 1)
    }

    /// True in `share` of 100 cases.
    pub fn percent(&mut self, share: u64) -> bool {
        self.below(100) < share
    }

    pub fn bits(&mut self, width: u32) -> u32 {
        (self.next() >> 20) as u32 & ((1u64 << width) - 1) as u32
    }

    pub fn pick<T: Copy>(&mut self, of: &[T]) -> T {
        of[self.below(of.len() as u64) as usize]
    }

    /// A word of 32 bits, often small or near an edge.
    pub fn word(&mut self) -> u32 {
        match self.below(6) {
            0 => self.pick(&EDGES),
            1 => self.bits(10),
            2 => !self.bits(10),
            3 => self.bits(16),
            _ => self.bits(32),
        }
    }

    pub fn words(&mut self, count: usize) -> Vec<u32> {
        (0..count).map(|_| self.next() as u32).collect()
    }
}
