//! Buffered output, a line at a time, written where it stays: a line put
//! together elsewhere and then copied would have to wait for its own stores.

use std::io::{self, Write};

const CAPACITY: usize = 64 * 1024;

/// Enough for a line of 20 + 3 + 10 + 10 + 10 digits, 4 + 8 hexadecimal digits,
/// spaces and the line end; a power of two, so that `%` keeps an index in bounds.
const LINE_CAPACITY: usize = 128;

const DECIMAL_PAIRS: [[u8; 2]; 100] = digit_pairs(10);
const HEXADECIMAL_PAIRS: [[u8; 2]; 256] = digit_pairs(16);
const POWERS_OF_TEN: [u64; 20] = powers_of_ten();

/// The two digits of each number below COUNT, which is the square of the base.
const fn digit_pairs<const COUNT: usize>(base: usize) -> [[u8; 2]; COUNT] {
    let digits = *b"0123456789abcdef";
    let mut pairs = [[0; 2]; COUNT];
    let mut number = 0;
    while number < COUNT {
        pairs[number] = [digits[number / base], digits[number % base]];
        number += 1;
    }
    pairs
}

const fn powers_of_ten() -> [u64; 20] {
    let mut powers = [1; 20];
    let mut exponent = 1;
    while exponent < 20 {
        powers[exponent] = 10 * powers[exponent - 1];
        exponent += 1;
    }
    powers
}

pub struct Output<W: Write> {
    writer: W,
    bytes: Vec<u8>,
    length: usize,
}

impl<W: Write> Output<W> {
    pub fn new(writer: W) -> Output<W> {
        Output {
            writer,
            bytes: vec![0; CAPACITY],
            length: 0,
        }
    }

    pub fn flush(&mut self) -> io::Result<()> {
        self.writer.write_all(&self.bytes[..self.length])?;
        self.length = 0;
        self.writer.flush()
    }

    /// What `write` writes, and the line end.
    #[inline]
    pub fn line(&mut self, write: impl FnOnce(&mut Line)) -> io::Result<()> {
        if CAPACITY - self.length < LINE_CAPACITY {
            self.flush()?;
        }
        let bytes = self.bytes[self.length..].first_chunk_mut();
        let mut line = Line {
            bytes: bytes.expect("room for a line"),
            length: 0,
        };
        write(&mut line);
        line.byte(b'\n');
        self.length += line.length;
        Ok(())
    }
}

pub struct Line<'a> {
    bytes: &'a mut [u8; LINE_CAPACITY],
    length: usize,
}

impl Line<'_> {
    #[inline]
    pub fn byte(&mut self, byte: u8) {
        self.bytes[self.length % LINE_CAPACITY] = byte;
        self.length += 1;
    }

    pub fn text(&mut self, text: &[u8]) {
        for byte in text {
            self.byte(*byte);
        }
    }

    /// From the last digit to the first, two for each division.
    #[inline]
    pub fn decimal(&mut self, mut number: u64) {
        self.length += digit_count(number);
        let mut end = self.length;
        while number >= 100 {
            end -= 2;
            self.pair_at(end, DECIMAL_PAIRS[(number % 100) as usize]);
            number /= 100;
        }
        if number >= 10 {
            self.pair_at(end - 2, DECIMAL_PAIRS[number as usize]);
        } else {
            self.bytes[(end - 1) % LINE_CAPACITY] = b'0' + number as u8;
        }
    }

    /// Two lower-case digits for each byte.
    #[inline]
    pub fn hexadecimal<const COUNT: usize>(&mut self, bytes: [u8; COUNT]) {
        for byte in bytes {
            self.pair_at(self.length, HEXADECIMAL_PAIRS[usize::from(byte)]);
            self.length += 2;
        }
    }

    #[inline]
    fn pair_at(&mut self, position: usize, pair: [u8; 2]) {
        self.bytes[position % LINE_CAPACITY] = pair[0];
        self.bytes[(position + 1) % LINE_CAPACITY] = pair[1];
    }
}

/// 1233 / 4096 is a little more than the decimal logarithm of 2: from the
/// number of bits it gives the number of digits or one less.
#[inline]
fn digit_count(number: u64) -> usize {
    let bits = u64::BITS - (number | 1).leading_zeros();
    let estimate = (bits * 1233 >> 12) as usize;
    estimate + usize::from((number | 1) >= POWERS_OF_TEN[estimate])
}

#[cfg(test)]
mod tests {
    use super::{digit_count, Output, POWERS_OF_TEN};

    fn decimal(number: u64) -> String {
        let mut bytes = Vec::new();
        let mut output = Output::new(&mut bytes);
        output.line(|line| line.decimal(number)).unwrap();
        output.flush().unwrap();
        String::from_utf8(bytes).unwrap()
    }

    #[test]
    fn decimals_around_the_powers_of_ten_and_two() {
        let powers_of_two = (0..64).map(|exponent| 1 << exponent);
        for power in POWERS_OF_TEN.into_iter().chain(powers_of_two) {
            for number in [power - 1, power, power + 1, u64::MAX] {
                assert_eq!(decimal(number), format!("{number}\n"));
                assert_eq!(digit_count(number), number.to_string().len());
            }
        }
    }

    #[test]
    fn all_hexadecimals() {
        for number in 0..=u16::MAX {
            let mut bytes = Vec::new();
            let mut output = Output::new(&mut bytes);
            output
                .line(|line| line.hexadecimal(number.to_be_bytes()))
                .unwrap();
            output.flush().unwrap();
            assert_eq!(bytes, format!("{number:04x}\n").into_bytes());
        }
    }
}
