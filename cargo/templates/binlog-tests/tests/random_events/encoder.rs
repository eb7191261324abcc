//! An encoder of its own for the fields of events: it uses nothing of the library.

/// Bytes that grow by a field at a time.
#[derive(Clone, Default)]
pub struct Encoder(Vec<u8>);

impl Encoder {
    pub fn new() -> Self {
        Encoder::default()
    }

    /// The low bytes of a number, the least significant one first.
    pub fn int(mut self, number: impl Into<u64>, width: usize) -> Self {
        self.0.extend(&number.into().to_le_bytes()[..width]);
        self
    }

    pub fn bytes(mut self, bytes: &[u8]) -> Self {
        self.0.extend(bytes);
        self
    }

    /// Bytes after their length.
    pub fn counted(self, bytes: &[u8], width: usize) -> Self {
        self.int(bytes.len() as u64, width).bytes(bytes)
    }

    /// What another function appends, if it is due.
    pub fn maybe(self, is_due: bool, more: impl FnOnce(Self) -> Self) -> Self {
        if is_due { more(self) } else { self }
    }

    /// A length-encoded integer: one byte below 251, else `fc`, `fd` or `fe` and 2, 3 or 8 bytes.
    pub fn lenenc(self, number: u64) -> Self {
        match number {
            0..251 => self.int(number, 1),
            251..0x1_0000 => self.bytes(&[0xfc]).int(number, 2),
            0x1_0000..0x100_0000 => self.bytes(&[0xfd]).int(number, 3),
            _ => self.bytes(&[0xfe]).int(number, 8),
        }
    }

    /// Bytes after their length-encoded length.
    pub fn lenenc_counted(self, bytes: &[u8]) -> Self {
        self.lenenc(bytes.len() as u64).bytes(bytes)
    }

    /// A number of `mysql::serialization`: the first byte has as many one bits at its low end as bytes follow it, then a
    /// zero bit if fewer than eight follow; the number's bits come after those.
    pub fn varlen(self, number: u64) -> Self {
        let bits = (64 - number.leading_zeros()).max(1);
        let following = (bits - 1) / 7;
        if following >= 8 {
            return self.bytes(&[0xff]).int(number, 8);
        }
        let ones = (1 << following) - 1;
        self.int(number << (following + 1) | ones, following as usize + 1)
    }

    /// A signed number of `mysql::serialization`: its sign is the lowest bit.
    pub fn varlen_signed(self, number: i64) -> Self {
        if number < 0 {
            self.varlen((!number).cast_unsigned() << 1 | 1)
        } else {
            self.varlen(number.cast_unsigned() << 1)
        }
    }

    /// One bit for each item, the first one's lowest in the first byte; `rest` fills the last byte.
    pub fn bits(mut self, bits: &[bool], rest: u8) -> Self {
        for eight in bits.chunks(8) {
            let mut byte = if eight.len() < 8 {
                rest & (0xff << eight.len())
            } else {
                0
            };
            for (place, bit) in eight.iter().enumerate() {
                byte |= u8::from(*bit) << place;
            }
            self.0.push(byte);
        }
        self
    }

    pub fn done(self) -> Vec<u8> {
        self.0
    }
}

/// The CRC-32 of Ethernet and zlib.
pub struct Crc([u32; 256]);

impl Crc {
    pub fn new() -> Self {
        Crc(std::array::from_fn(|byte| {
            (0..8).fold(byte as u32, |sum, _| {
                sum >> 1 ^ if sum & 1 == 1 { 0xedb8_8320 } else { 0 }
            })
        }))
    }

    pub fn of(&self, bytes: &[u8]) -> u32 {
        !bytes.iter().fold(u32::MAX, |sum, byte| {
            sum >> 8 ^ self.0[usize::from(sum as u8 ^ byte)]
        })
    }
}
