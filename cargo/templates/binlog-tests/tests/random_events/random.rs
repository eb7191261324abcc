//! Random values: always the same ones for a seed.

/// A generator of numbers (SplitMix64).
pub struct Random(u64);

impl Random {
    pub fn new(seed: u64) -> Self {
        Random(seed)
    }

    /// A number of 64 bits.
    pub fn next(&mut self) -> u64 {
        self.0 = self.0.wrapping_add(0x9e37_79b9_7f4a_7c15);
        let mixed = (self.0 ^ self.0 >> 30).wrapping_mul(0xbf58_476d_1ce4_e5b9);
        let mixed = (mixed ^ mixed >> 27).wrapping_mul(0x94d0_49bb_1331_11eb);
        mixed ^ mixed >> 31
    }

    /// A number below this one.
    pub fn below(&mut self, end: u64) -> u64 {
        self.next() % end
    }

    /// Whether one of so many cases comes.
    pub fn one_in(&mut self, cases: u64) -> bool {
        self.below(cases) == 0
    }

    /// A number of at most so many bits: each number of bits comes as often as any other, and the greatest number too.
    pub fn number(&mut self, most_bits: u32) -> u64 {
        let bits = self.below(u64::from(most_bits) + 1) as u32;
        let greatest = if bits == 0 {
            0
        } else {
            u64::MAX >> (64 - bits)
        };
        if self.one_in(8) {
            greatest
        } else {
            self.next() & greatest
        }
    }

    pub fn u8(&mut self) -> u8 {
        self.number(8) as u8
    }

    pub fn u16(&mut self) -> u16 {
        self.number(16) as u16
    }

    pub fn u32(&mut self) -> u32 {
        self.number(32) as u32
    }

    pub fn u64(&mut self) -> u64 {
        self.number(64)
    }

    pub fn flag(&mut self) -> bool {
        self.one_in(2)
    }

    /// A length of at most `most`: most are short, some long, and a few reach `most`.
    pub fn len(&mut self, most: usize) -> usize {
        let len = match self.below(1024) {
            0 => most.min(70_000),
            1..40 => self.below(600) as usize,
            _ => self.below(24) as usize,
        };
        len.min(most)
    }

    /// At most so many bytes.
    pub fn bytes(&mut self, most: usize) -> Vec<u8> {
        let len = self.len(most);
        let mut bytes = Vec::with_capacity(len + 8);
        while bytes.len() < len {
            bytes.extend(self.next().to_le_bytes());
        }
        bytes.truncate(len);
        bytes
    }

    pub fn array<const N: usize>(&mut self) -> [u8; N] {
        std::array::from_fn(|_| self.next() as u8)
    }

    pub fn pick<T: Copy>(&mut self, items: &[T]) -> T {
        items[self.below(items.len() as u64) as usize]
    }
}
