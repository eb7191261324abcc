//! The output: lines that are put together where they are written from.

use crate::digits::write_number;
use std::io::{self, Write};

/// What a short piece of text or a number takes at most. It is kept free behind the line, so that these look for no room.
const MARGIN: usize = 1024;

pub struct Line {
    bytes: Vec<u8>,
    length: usize,
}

/// The first COUNT bytes from a place on.
#[inline(always)]
pub fn part<const COUNT: usize>(bytes: &mut [u8], at: usize) -> &mut [u8; COUNT] {
    bytes[at..].first_chunk_mut().expect("room was made")
}

impl Line {
    pub fn new(capacity: usize) -> Self {
        Line { bytes: vec![0; capacity], length: 0 }
    }

    pub fn length(&self) -> usize {
        self.length
    }

    pub fn cut(&mut self, length: usize) {
        self.length = length;
    }

    /// Writes what is there if it is more than so many bytes.
    #[inline(always)]
    pub fn flush_above(&mut self, limit: usize, output: &mut impl Write) -> io::Result<()> {
        if self.length > limit {
            output.write_all(&self.bytes[..self.length])?;
            self.length = 0;
        }
        Ok(())
    }

    /// Makes room for so many bytes, and for short pieces behind them.
    #[inline(always)]
    pub fn reserve(&mut self, count: usize) {
        if self.bytes.len() - self.length < count + MARGIN {
            self.grow(count + MARGIN);
        }
    }

    #[cold]
    fn grow(&mut self, room: usize) {
        let length = (self.length + room).max(2 * self.bytes.len());
        self.bytes.resize(length, 0);
    }

    /// All bytes, and where the line ends, for those who write there. They call `cut` with the new end.
    #[inline(always)]
    pub fn room(&mut self) -> (&mut [u8], usize) {
        (&mut self.bytes, self.length)
    }

    /// A short piece of text.
    #[inline(always)]
    pub fn piece<const COUNT: usize>(&mut self, text: &[u8; COUNT]) {
        *part(&mut self.bytes, self.length) = *text;
        self.length += COUNT;
    }

    #[inline(always)]
    pub fn number(&mut self, number: u64) {
        self.length += write_number(part(&mut self.bytes, self.length), number);
    }

    /// A short piece, and a number.
    #[inline(always)]
    pub fn named<const COUNT: usize>(&mut self, text: &[u8; COUNT], number: u64) {
        self.piece(text);
        self.number(number);
    }

    #[inline(always)]
    pub fn text(&mut self, text: &[u8]) {
        self.reserve(text.len());
        self.bytes[self.length..][..text.len()].copy_from_slice(text);
        self.length += text.len();
    }

    /// Hexadecimal digits in quotation marks.
    pub fn hexadecimal(&mut self, bytes: &[u8]) {
        self.reserve(2 * bytes.len());
        self.length = write_hexadecimal(&mut self.bytes, self.length, bytes);
    }

    /// A string if the bytes are UTF-8, else an object with their digits.
    #[inline(always)]
    pub fn string(&mut self, text: &[u8]) {
        if !text.iter().all(|byte| is_plain(*byte)) {
            return self.any_string(text);
        }
        self.piece(b"\"");
        self.text(text);
        self.piece(b"\"");
    }

    #[cold]
    fn any_string(&mut self, text: &[u8]) {
        self.reserve(6 * text.len());
        self.length = write_string(&mut self.bytes, self.length, text);
    }

    /// An array of booleans, one for each of so many bits.
    pub fn bits(&mut self, bits: &[u8], count: usize) {
        self.reserve(6 * count);
        let begin = self.length;
        for index in 0..count {
            let is_set = bits[index / 8] >> (index % 8) & 1 == 1;
            let (text, length) = if is_set { (b",true\0\0\0", 5) } else { (b",false\0\0", 6) };
            *part(&mut self.bytes, self.length) = *text;
            self.length += length;
        }
        self.close_array(begin);
    }

    /// The first comma becomes the bracket that begins the array.
    #[inline(always)]
    pub fn close_array(&mut self, begin: usize) {
        self.bytes[begin] = b'[';
        self.length = self.length.max(begin + 1);
        self.piece(b"]");
    }
}

/// Whether a byte of a string is written as it is, and is a character.
#[inline(always)]
pub fn is_plain(byte: u8) -> bool {
    byte as i8 >= 0x20 && byte != b'"' && byte != b'\\'
}

/// Hexadecimal digits, by arithmetic that the compiler makes vectors of.
#[inline(never)]
fn write_digits(places: &mut [[u8; 2]], bytes: &[u8]) {
    for (byte, place) in bytes.iter().zip(places) {
        let nibbles = (u16::from(*byte) >> 4 | u16::from(*byte) << 8) & 0x0f0f;
        let letters = nibbles.wrapping_add(0x7676) >> 7 & 0x0101;
        *place = nibbles.wrapping_add(0x3030).wrapping_add(letters.wrapping_mul(39)).to_le_bytes();
    }
}

fn write_hexadecimal(out: &mut [u8], at: usize, bytes: &[u8]) -> usize {
    let place = &mut out[at..][..2 * bytes.len() + 2];
    let last = place.len() - 1;
    place[0] = b'"';
    place[last] = b'"';
    write_digits(place[1..last].as_chunks_mut().0, bytes);
    at + last + 1
}

/// A string if the bytes are UTF-8, else an object. There is room for six bytes a byte, and more.
#[cold]
pub fn write_string(out: &mut [u8], at: usize, text: &[u8]) -> usize {
    if std::str::from_utf8(text).is_err() {
        *part(out, at) = *b"{\"hex\":";
        let end = write_hexadecimal(out, at + 7, text);
        out[end] = b'}';
        return end + 1;
    }
    let mut escaped = vec![b'"'];
    for byte in text {
        match byte {
            b'"' | b'\\' => escaped.extend([b'\\', *byte]),
            8 => escaped.extend(b"\\b"),
            9 => escaped.extend(b"\\t"),
            10 => escaped.extend(b"\\n"),
            12 => escaped.extend(b"\\f"),
            13 => escaped.extend(b"\\r"),
            0..=31 => escaped.extend(format!("\\u{byte:04x}").bytes()),
            _ => escaped.push(*byte),
        }
    }
    escaped.push(b'"');
    out[at..][..escaped.len()].copy_from_slice(&escaped);
    at + escaped.len()
}
