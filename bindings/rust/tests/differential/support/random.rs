/// Splitmix64: small, and the same everywhere.
pub struct Random(u64);

impl Random {
    /// A generator of its own for each subject, so that none shifts another's inputs.
    pub fn new(seed: u64, subject: &str) -> Self {
        let mix = |hash: u64, byte: u8| (hash ^ u64::from(byte)).wrapping_mul(0x100_0000_01B3);
        let name = subject.bytes().fold(0xCBF2_9CE4_8422_2325, mix);
        Random(seed.wrapping_mul(0x9E37_79B9_7F4A_7C15) ^ name)
    }

    pub fn word(&mut self) -> u64 {
        self.0 = self.0.wrapping_add(0x9E37_79B9_7F4A_7C15);
        let mut z = self.0;
        z = (z ^ z >> 30).wrapping_mul(0xBF58_476D_1CE4_E5B9);
        z = (z ^ z >> 27).wrapping_mul(0x94D0_49BB_1331_11EB);
        z ^ z >> 31
    }

    pub fn byte(&mut self) -> u8 {
        self.word() as u8
    }

    /// A number under the bound.
    pub fn below(&mut self, bound: usize) -> usize {
        ((u128::from(self.word()) * bound as u128) >> 64) as usize
    }

    /// True once in so many times.
    pub fn one_in(&mut self, bound: usize) -> bool {
        self.below(bound) == 0
    }

    pub fn pick<T: Copy>(&mut self, from: &[T]) -> T {
        from[self.below(from.len())]
    }

    pub fn bytes(&mut self, length: usize) -> Vec<u8> {
        let mut bytes = Vec::with_capacity(length + 8);
        while bytes.len() < length {
            bytes.extend(self.word().to_le_bytes());
        }
        bytes.truncate(length);
        bytes
    }

    /// How many places are lent for a result that needs so many: mostly those, at times more,
    /// seldom fewer.
    pub fn places(&mut self, needed: usize) -> usize {
        match self.below(64) {
            0 => self.below(needed),
            1 => needed - 1,
            2..=4 => needed + 1,
            5..=7 => needed + self.below(300),
            _ => needed,
        }
    }

    /// A value for a field of so many bits: mostly in it, often at its ends, seldom past it.
    pub fn field(&mut self, bits: u32) -> u8 {
        let highest = ((1u16 << bits) - 1) as u8;
        match self.below(40) {
            0 => highest.wrapping_add(1),
            1 => self.byte(),
            2..=4 => highest,
            5..=7 => 0,
            _ => self.byte() & highest,
        }
    }
}
