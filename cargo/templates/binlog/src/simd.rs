//! Blocks of bytes, with the names of the unstable `std::simd`. Bytes are compared eight at a time, in the words of a block.

/// The highest bit of each byte of a word.
const HIGHEST: u64 = 0x8080_8080_8080_8080;

/// N bytes.
#[derive(Clone, Copy)]
pub struct Simd<T, const N: usize>([T; N]);

/// For each of N bytes, at most 64, whether something holds of it: its highest bit in the words of the block.
#[derive(Clone, Copy)]
pub struct Mask<const N: usize>([u64; 8]);

/// The bytes in words, the first byte the lowest, with zeros behind them.
#[inline(always)]
fn words<const N: usize>(bytes: [u8; N]) -> [u64; 8] {
    let mut words = [0; 8];
    for (word, eight) in words.iter_mut().zip(bytes.chunks(8)) {
        let mut bytes = [0; 8];
        bytes[..eight.len()].copy_from_slice(eight);
        *word = u64::from_le_bytes(bytes);
    }
    words
}

/// The highest bit of each byte that is equal to the other word's.
#[inline(always)]
fn equal(word: u64, other: u64) -> u64 {
    let differing = word ^ other;
    // The sum has the highest bit of a byte if one of its other bits is set.
    !(((differing & !HIGHEST) + !HIGHEST) | differing) & HIGHEST
}

/// The highest bit of each byte that is below the other word's.
#[inline(always)]
fn below(word: u64, other: u64) -> u64 {
    // The difference keeps the highest bit of a byte if the other bits aren't below those of the other byte.
    let difference = (word | HIGHEST) - (other & !HIGHEST);
    ((!word & other) | (!(word ^ other) & !difference)) & HIGHEST
}

impl<const N: usize> Simd<u8, N> {
    /// The first N bytes, of as many or more.
    #[inline(always)]
    pub fn from_slice(bytes: &[u8]) -> Self {
        match bytes.first_chunk() {
            Some(block) => Simd(*block),
            None => panic!("fewer than {N} bytes"),
        }
    }

    /// Writes the bytes to the first N places, of as many or more.
    #[inline(always)]
    pub fn copy_to_slice(self, bytes: &mut [u8]) {
        match bytes.first_chunk_mut() {
            Some(block) => *block = self.0,
            None => panic!("fewer than {N} bytes"),
        }
    }

    /// The same byte N times.
    #[inline(always)]
    pub fn splat(byte: u8) -> Self {
        Simd([byte; N])
    }

    /// Which bytes are equal.
    #[inline(always)]
    pub fn simd_eq(self, other: Self) -> Mask<N> {
        self.compared(other, equal)
    }

    /// Which bytes are below the other's.
    #[inline(always)]
    pub fn simd_lt(self, other: Self) -> Mask<N> {
        self.compared(other, below)
    }

    /// Which bytes aren't below the other's.
    #[inline(always)]
    pub fn simd_ge(self, other: Self) -> Mask<N> {
        self.compared(other, |word, other| below(word, other) ^ HIGHEST)
    }

    #[inline(always)]
    fn compared(self, other: Self, holds: impl Fn(u64, u64) -> u64) -> Mask<N> {
        let (ours, others, all) = (words(self.0), words(other.0), words([0x80; N]));
        let mut mask = [0; 8];
        for place in 0..N.div_ceil(8) {
            mask[place] = holds(ours[place], others[place]) & all[place];
        }
        Mask(mask)
    }
}

impl<const N: usize> std::ops::BitOr for Mask<N> {
    type Output = Self;

    #[inline(always)]
    fn bitor(self, other: Self) -> Self {
        let mut mask = self.0;
        for place in 0..8 {
            mask[place] |= other.0[place];
        }
        Mask(mask)
    }
}

impl<const N: usize> Mask<N> {
    /// The bits of the mask, the first byte's lowest.
    // Most masks have none, and are only compared with 0.
    #[inline(always)]
    pub fn to_bitmask(self) -> u64 {
        if self.0.iter().all(|&word| word == 0) {
            return 0;
        }
        let mut bits = 0;
        for place in 0..N.div_ceil(8) {
            // The product's highest byte has the lowest bit of each byte, the first one's lowest.
            let gathered = (self.0[place] >> 7).wrapping_mul(0x0102_0408_1020_4080) >> 56;
            bits |= gathered << (8 * place);
        }
        bits
    }
}

#[cfg(test)]
mod tests {
    use super::{Mask, Simd};

    /// The bits of what holds of bytes, one by one.
    fn bits(holds: impl Iterator<Item = bool>) -> u64 {
        holds
            .enumerate()
            .map(|(place, holds)| u64::from(holds) << place)
            .sum()
    }

    /// Compares the masks of N bytes with each byte, the first of which has each value.
    fn compare<const N: usize>() {
        for first in 0..=u8::MAX {
            let bytes: [u8; N] =
                std::array::from_fn(|place| first.wrapping_add(37u8.wrapping_mul(place as u8)));
            let block = || Simd::<u8, N>::from_slice(&bytes);
            for byte in 0..=u8::MAX {
                let other = || Simd::splat(byte);
                let checked = |mask: Mask<N>, holds: fn(u8, u8) -> bool| {
                    let expected = bits(bytes.iter().map(|&ours| holds(ours, byte)));
                    assert_eq!(mask.to_bitmask(), expected, "{bytes:?} and {byte}");
                };
                checked(block().simd_eq(other()), |ours, byte| ours == byte);
                checked(block().simd_lt(other()), |ours, byte| ours < byte);
                checked(block().simd_ge(other()), |ours, byte| ours >= byte);
                checked(
                    block().simd_eq(other()) | block().simd_lt(other()),
                    |ours, byte| ours <= byte,
                );
            }
        }
    }

    #[test]
    fn masks_have_a_bit_for_each_byte() {
        compare::<1>();
        compare::<4>();
        compare::<8>();
        compare::<16>();
        compare::<64>();
    }
}
