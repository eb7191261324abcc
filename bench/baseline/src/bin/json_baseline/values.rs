//! Values of columns, each written where it stays.

use crate::digits::{eight_digits, four_digits, pair, six_digits, write_number, write_signed};
use crate::documents::write_document;
use crate::line::{is_plain, part, write_string};
use crate::tables::Piece;

/// How a value is read, and what is written of it.
pub enum Decoder {
    Tiny,
    Long,
    UnsignedLong,
    LongLong,
    Double,
    /// With so many bytes at most behind a length of one byte.
    ShortText(u8),
    /// Behind a length of two bytes.
    Text,
    /// Behind a length of four bytes.
    Json,
    Decimal(Decimal),
    /// Seconds.
    Timestamp2,
    /// With microseconds.
    DateTime2,
    /// With the texts of its values from 0 on, or none.
    Enum(Box<[Piece]>),
}

#[inline(always)]
fn take<const COUNT: usize>(rest: &mut &[u8]) -> Option<[u8; COUNT]> {
    let (bytes, left) = rest.split_first_chunk()?;
    *rest = left;
    Some(*bytes)
}

/// Takes a value from the front of the bytes, and writes it. There is room for it, and for a block of 32 bytes.
#[inline(always)]
pub fn write_value(decoder: &Decoder, rest: &mut &[u8], out: &mut [u8], at: usize) -> Option<usize> {
    match decoder {
        Decoder::Tiny => Some(signed(out, at, i8::from_le_bytes(take(rest)?).into())),
        Decoder::Long => Some(signed(out, at, i32::from_le_bytes(take(rest)?).into())),
        Decoder::LongLong => Some(signed(out, at, i64::from_le_bytes(take(rest)?))),
        Decoder::UnsignedLong => Some(unsigned(out, at, u32::from_le_bytes(take(rest)?).into())),
        Decoder::Double => double(f64::from_le_bytes(take(rest)?), out, at),
        Decoder::ShortText(most) => {
            let [length] = take(rest)?;
            (length <= *most).then(|| text(length.into(), rest, out, at))?
        }
        Decoder::Text => {
            let length = u16::from_le_bytes(take(rest)?);
            text(length.into(), rest, out, at)
        }
        Decoder::Json => {
            let length = u32::from_le_bytes(take(rest)?);
            let (document, left) = rest.split_at_checked(length as usize)?;
            *rest = left;
            write_document(document, out, at)
        }
        Decoder::Decimal(decimal) => decimal.write(rest, out, at),
        Decoder::Timestamp2 => Some(timestamp(u32::from_be_bytes(take(rest)?), out, at)),
        Decoder::DateTime2 => datetime(take(rest)?, take(rest)?, out, at),
        Decoder::Enum(members) => {
            let [index] = take(rest)?;
            Some(match members.get(usize::from(index)) {
                Some(member) => member.write(out, at),
                None => unsigned(out, at, index.into()),
            })
        }
    }
}

#[inline(always)]
pub fn write_null(out: &mut [u8], at: usize) -> usize {
    *part(out, at) = *b"null";
    at + 4
}

#[inline(always)]
fn unsigned(out: &mut [u8], at: usize, number: u64) -> usize {
    at + write_number(part(out, at), number)
}

#[inline(always)]
fn signed(out: &mut [u8], at: usize, number: i64) -> usize {
    at + write_signed(part(out, at), number)
}

/// A finite number below 2^29 that is a whole number of 64ths and isn't 0: 2^-6 is 15,625 millionths, so that it has at most six digits
/// behind its point, and 15 in all; no other number of so few digits reads back as it.
#[inline(always)]
fn double(number: f64, out: &mut [u8], at: usize) -> Option<usize> {
    let size = number.abs();
    let parts = (size * 64.0) as u64;
    if parts as f64 != size * 64.0 || !(1..1 << 35).contains(&parts) {
        return any_double(number, out, at);
    }
    let place: &mut [u8; 64] = part(out, at);
    place[0] = b'-';
    let mut end = usize::from(number < 0.0);
    end += write_number(part(place, end), parts >> 6);
    let point: &mut [u8; 9] = part(place, end & 31);
    let digits = six_digits((parts as u32 & 63) * 15_625);
    point[0] = b'.';
    point[1..].copy_from_slice(&digits);
    // The digits without the zeros behind them, but for the first.
    let last = u64::from_le_bytes(digits) & 0x0f0f_0f0f_0f0f | 1;
    Some(at + end + 2 + (63 - last.leading_zeros() as usize) / 8)
}

/// The same of 0; the benchmark's logs have no other.
#[cold]
fn any_double(number: f64, out: &mut [u8], at: usize) -> Option<usize> {
    if number.to_bits() != 0 {
        return None;
    }
    *part(out, at) = *b"0.0";
    Some(at + 3)
}

const ONES: u64 = 0x0101_0101_0101_0101;
const TOPS: u64 = 0x80 * ONES;

/// A number with a top bit in the first byte that is a control character, a quotation mark, a backslash, or not ASCII, if there
/// is one, and in none before.
#[inline(always)]
fn special(eight: u64) -> u64 {
    let control = eight.wrapping_sub(0x20 * ONES);
    let quote = (eight ^ u64::from(b'"') * ONES).wrapping_sub(ONES);
    let backslash = (eight ^ u64::from(b'\\') * ONES).wrapping_sub(ONES);
    eight | control | quote | backslash
}

#[inline(always)]
fn halves(block: &[u8; 16]) -> (u64, u64) {
    let number = u128::from_le_bytes(*block);
    (number as u64, (number >> 64) as u64)
}

/// A text, which is checked while it is copied, 16 bytes at a time.
#[inline(always)]
pub fn text(length: usize, rest: &mut &[u8], out: &mut [u8], at: usize) -> Option<usize> {
    let all = *rest;
    let (text, left) = all.split_at_checked(length)?;
    *rest = left;
    // As many whole blocks as there are, and one that the text's end cuts.
    let cut = length & !15;
    let Some(blocks) = all.get(..cut + 16) else {
        return Some(text_at_end(text, out, at));
    };
    let to = &mut out[at..][..cut + 33];
    to[0] = b'"';
    let (places, _) = to[1..].as_chunks_mut::<16>();
    let (blocks, last) = blocks.split_at(cut);
    let (front, back) = places.split_at_mut(cut / 16);
    let mut found = 0;
    for (from, place) in blocks.as_chunks::<16>().0.iter().zip(front) {
        *place = *from;
        let (low, high) = halves(from);
        found |= special(low) | special(high);
    }
    let last = last.first_chunk::<16>()?;
    *back.first_mut()? = *last;
    let (low, high) = halves(last);
    let bits = 8 * (length as u32 & 15);
    if bits < 64 {
        found |= special(low) & !(u64::MAX << bits);
    } else {
        found |= special(low) | special(high) & !(u64::MAX << (bits - 64));
    }
    if found & TOPS != 0 {
        return Some(write_string(out, at, text));
    }
    to[1 + length] = b'"';
    Some(at + length + 2)
}

/// A text with fewer bytes behind it than a block has.
#[cold]
#[inline(never)]
fn text_at_end(text: &[u8], out: &mut [u8], at: usize) -> usize {
    if !text.iter().all(|byte| is_plain(*byte)) {
        return write_string(out, at, text);
    }
    out[at] = b'"';
    out[at + 1..][..text.len()].copy_from_slice(text);
    out[at + 1 + text.len()] = b'"';
    at + text.len() + 2
}

const NINE_DIGITS: u64 = 1_000_000_000;

/// A decimal number in at most eight bytes: a group of at most eight digits, one of nine digits or none, the point, and a group of at
/// most eight.
pub struct Decimal {
    bytes: u8,
    /// How far the number of all bytes is shifted for a group, the bits of the group, and what it is below.
    lead_shift: u8,
    lead_mask: u32,
    lead_limit: u32,
    nine_shift: u8,
    nine_mask: u32,
    tail_mask: u32,
    tail_limit: u32,
    /// The factor that makes four or eight digits of the last group's.
    tail_scale: u32,
    tail: u8,
    /// What the first group is multiplied by.
    lead_scale: u64,
}

impl Decimal {
    /// None of one that has other groups.
    pub fn new(precision: u8, scale: u8) -> Option<Self> {
        let digits = precision.checked_sub(scale)?;
        let (lead, nines, tail) = (digits % 9, digits / 9, scale);
        let size = |digits: u8| digits.div_ceil(2);
        let bytes = size(lead) + 4 * nines + size(tail);
        if tail > 8 || nines > 1 || !(1..=8).contains(&bytes) {
            return None;
        }
        let mask = |bytes: u8| ((1u64 << (8 * bytes)) - 1) as u32;
        Some(Decimal {
            bytes,
            lead_shift: 8 * size(tail) + 32 * nines,
            lead_mask: mask(size(lead)),
            lead_limit: 10u32.pow(lead.into()),
            nine_shift: 8 * size(tail),
            nine_mask: if nines == 1 { u32::MAX } else { 0 },
            tail_mask: mask(size(tail)),
            tail_limit: 10u32.pow(tail.into()),
            tail_scale: 10u32.pow(if tail <= 4 { 4 } else { 8 } - u32::from(tail)),
            tail,
            lead_scale: if nines == 1 { NINE_DIGITS } else { 1 },
        })
    }

    #[inline(always)]
    fn stored(&self, rest: &mut &[u8]) -> Option<u64> {
        let count = usize::from(self.bytes & 15);
        let (bytes, left) = rest.split_at_checked(count)?;
        let stored = match rest.first_chunk() {
            Some(first) => u64::from_be_bytes(*first) >> (64 - 8 * count as u32 & 63),
            None => bytes.iter().fold(0, |number, byte| number << 8 | u64::from(*byte)),
        };
        *rest = left;
        Some(stored)
    }

    #[inline(always)]
    fn write(&self, rest: &mut &[u8], out: &mut [u8], at: usize) -> Option<usize> {
        let stored = self.stored(rest)?;
        let top = 1u64 << (8 * u32::from(self.bytes) - 1 & 63);
        let is_negative = stored & top == 0;
        let number = if is_negative { !stored } else { stored } ^ top;
        let lead = number.checked_shr(self.lead_shift.into()).unwrap_or(0) as u32 & self.lead_mask;
        let nine = (number >> (self.nine_shift & 63)) as u32 & self.nine_mask;
        let tail = number as u32 & self.tail_mask;
        if lead >= self.lead_limit || u64::from(nine) >= NINE_DIGITS || tail >= self.tail_limit {
            return None;
        }
        let place: &mut [u8; 64] = part(out, at);
        place[0] = b'"';
        place[1] = b'-';
        let mut end = 1 + usize::from(is_negative);
        end += write_number(part(place, end), u64::from(lead) * self.lead_scale + u64::from(nine));
        if self.tail > 0 {
            let point: &mut [u8; 9] = part(place, end & 31);
            point[0] = b'.';
            if self.tail <= 4 {
                point[1..5].copy_from_slice(&four_digits(tail * self.tail_scale));
            } else {
                point[1..].copy_from_slice(&eight_digits(tail * self.tail_scale));
            }
            end += 1 + usize::from(self.tail);
        }
        place[end & 63] = b'"';
        Some(at + end + 1)
    }
}

/// A date with a year of at most four digits, and a time: the text without the quotation mark behind it.
#[inline(always)]
pub fn write_moment(place: &mut [u8; 40], [year, month, day]: [u32; 3], [hour, minute, second]: [u32; 3]) {
    place[0] = b'"';
    place[1..3].copy_from_slice(&pair(year / 100));
    place[3..5].copy_from_slice(&pair(year % 100));
    for (at, mark, number) in
        [(5, b'-', month), (8, b'-', day), (11, b' ', hour), (14, b':', minute), (17, b':', second)]
    {
        place[at] = mark;
        place[at + 1..at + 3].copy_from_slice(&pair(number));
    }
}

/// None of a value below 0, of a year from 10,000 on, or of a million microseconds or more.
#[inline(always)]
fn datetime(stored: [u8; 5], [high, middle, low]: [u8; 3], out: &mut [u8], at: usize) -> Option<usize> {
    let [first, last @ ..] = stored;
    let moment = (u64::from(first) << 32 | u64::from(u32::from_be_bytes(last))).checked_sub(1 << 39)?;
    let microseconds = u32::from_be_bytes([0, high, middle, low]);
    let (months, time) = ((moment >> 22) as u32, moment as u32 & 0x3f_ffff);
    if months >= 13 * 10_000 || microseconds >= 1_000_000 {
        return None;
    }
    let place: &mut [u8; 40] = part(out, at);
    write_moment(place, [months / 13, months % 13, time >> 17], [time >> 12 & 31, time >> 6 & 63, time & 63]);
    place[20] = b'.';
    place[21..29].copy_from_slice(&six_digits(microseconds));
    place[27] = b'"';
    Some(at + 28)
}

/// The year, month and day of so many days behind 1970-01-01, until 2106: the way of Cassio Neri and Lorenz Schneider ("Euclidean
/// affine functions and their application to calendar algorithms").
#[inline(always)]
fn date(days: u32) -> [u32; 3] {
    let number = 4 * (days + 719_468) + 3;
    let century = number / 146_097;
    let number = 4 * (number % 146_097 / 4) + 3;
    let product = 2_939_745 * u64::from(number);
    let day_of_year = product as u32 / 2_939_745 / 4;
    let months = 2_141 * day_of_year + 197_913;
    let is_next_year = day_of_year >= 306;
    let year = 100 * century + (product >> 32) as u32 + u32::from(is_next_year);
    let month = months >> 16;
    [year, if is_next_year { month - 12 } else { month }, (months & 0xffff) / 2_141 + 1]
}

#[inline(always)]
fn timestamp(seconds: u32, out: &mut [u8], at: usize) -> usize {
    let place = part(out, at);
    let day = if seconds == 0 { [0; 3] } else { date(seconds / 86_400) };
    let minutes = seconds % 86_400 / 60;
    write_moment(place, day, [minutes / 60, minutes % 60, seconds % 60]);
    place[20] = b'"';
    at + 21
}
