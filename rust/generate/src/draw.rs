//! Numbers that look drawn, the same for the same seed.

pub struct Draw(u64);

/// Words at which something changes: limits of this layer, of errors and of number types.
const EDGES: [u64; 48] = [
    0,
    1,
    2,
    3,
    15,
    16,
    17,
    62,
    63,
    64,
    65,
    127,
    128,
    129,
    255,
    256,
    4_095,
    4_096,
    4_097,
    8_191,
    8_192,
    8_193,
    65_535,
    65_536,
    (1 << 31) - 1,
    1 << 31,
    (1 << 31) + 1,
    (1 << 32) - 4_096,
    (1 << 32) - 133,
    (1 << 32) - 132,
    (1 << 32) - 1,
    1 << 32,
    (1 << 32) + 1,
    (1 << 32) + 63,
    (1 << 62) - 1,
    1 << 62,
    (1 << 62) + 5,
    (1 << 63) - 1,
    1 << 63,
    (1 << 63) + 1,
    u64::MAX - (1 << 31),
    u64::MAX - 4_096,
    u64::MAX - 4_095,
    u64::MAX - 133,
    u64::MAX - 132,
    u64::MAX - 131,
    u64::MAX - 1,
    u64::MAX,
];

impl Draw {
    pub fn new(seed: u64) -> Draw {
        Draw(seed)
    }

    /// Any word (splitmix64).
    pub fn any(&mut self) -> u64 {
        self.0 = self.0.wrapping_add(0x9e37_79b9_7f4a_7c15);
        let mut word = self.0;
        word = (word ^ (word >> 30)).wrapping_mul(0xbf58_476d_1ce4_e5b9);
        word = (word ^ (word >> 27)).wrapping_mul(0x94d0_49bb_1331_11eb);
        word ^ (word >> 31)
    }

    pub fn below(&mut self, bound: u64) -> u64 {
        self.any() % bound
    }

    pub fn chance(&mut self, of_100: u64) -> bool {
        self.below(100) < of_100
    }

    pub fn one_of<T: Copy>(&mut self, from: &[T]) -> T {
        from[self.below(from.len() as u64) as usize]
    }

    pub fn maybe_of<T: Copy>(&mut self, from: &[T]) -> Option<T> {
        (!from.is_empty()).then(|| self.one_of(from))
    }

    /// The place of a weight, each as likely as its weight says.
    pub fn weighted(&mut self, weights: &[u64]) -> usize {
        let mut left = self.below(weights.iter().sum());
        for (place, weight) in weights.iter().enumerate() {
            match left.checked_sub(*weight) {
                Some(rest) => left = rest,
                None => return place,
            }
        }
        unreachable!("a number below the sum of the weights")
    }

    /// An edge, or a number of any length in bits.
    pub fn word(&mut self) -> u64 {
        if self.chance(50) {
            self.one_of(&EDGES)
        } else {
            let bits = self.below(64);
            self.any() >> bits
        }
    }

    pub fn half(&mut self) -> u32 {
        let word = self.word();
        (if self.chance(50) { word } else { word >> 32 }) as u32
    }

    pub fn byte(&mut self) -> u8 {
        self.any() as u8
    }
}
