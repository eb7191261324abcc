//! Documents of MySQL's binary JSON, each written while it is read.

use crate::digits::{six_digits, write_number, write_signed};
use crate::line::part;
use crate::values::{text, write_moment};

const MOST_NESTED: usize = 100;
const DECIMAL: u8 = 246;
const DATE: u8 = 10;
const DATETIME: u8 = 12;

/// How many arrays and objects may be within the next one, and how many bytes may still be read. Offsets may name the same bytes again
/// and again, so that each byte is paid for each time; with it the text has at most six bytes for each byte.
struct Limits {
    depth: usize,
    bytes: usize,
}

impl Limits {
    #[inline(always)]
    fn pay(&mut self, count: usize) -> Option<()> {
        self.bytes = self.bytes.checked_sub(count)?;
        Some(())
    }
}

/// Writes a document. There is room for six times its bytes, and for a block of 64 bytes. None if it isn't one, if it has no text,
/// or if it has opaque values of other types than the benchmark's.
pub fn write_document(document: &[u8], out: &mut [u8], at: usize) -> Option<usize> {
    *part(out, at) = *b"{\"json\":";
    let (kind, bytes) = document.split_first()?;
    let end = write_value(*kind, bytes, &mut Limits { depth: MOST_NESTED, bytes: bytes.len() }, out, at + 8)?;
    out[end] = b'}';
    Some(end + 1)
}

#[inline(always)]
fn first<const COUNT: usize>(bytes: &[u8], limits: &mut Limits) -> Option<[u8; COUNT]> {
    limits.pay(COUNT)?;
    bytes.first_chunk().copied()
}

/// A value that begins where the bytes do, and ends within them.
fn write_value(kind: u8, bytes: &[u8], limits: &mut Limits, out: &mut [u8], at: usize) -> Option<usize> {
    match kind {
        0 => write_container::<2, true>(bytes, limits, out, at),
        1 => write_container::<4, true>(bytes, limits, out, at),
        2 => write_container::<2, false>(bytes, limits, out, at),
        3 => write_container::<4, false>(bytes, limits, out, at),
        4 => literal(first::<1>(bytes, limits)?[0], out, at),
        5 => Some(signed(i16::from_le_bytes(first(bytes, limits)?).into(), out, at)),
        6 => Some(unsigned(u16::from_le_bytes(first(bytes, limits)?).into(), out, at)),
        7 => Some(signed(i32::from_le_bytes(first(bytes, limits)?).into(), out, at)),
        8 => Some(unsigned(u32::from_le_bytes(first(bytes, limits)?).into(), out, at)),
        9 => Some(signed(i64::from_le_bytes(first(bytes, limits)?), out, at)),
        10 => Some(unsigned(u64::from_le_bytes(first(bytes, limits)?), out, at)),
        11 => double(f64::from_le_bytes(first(bytes, limits)?), out, at),
        12 => {
            let (length, bytes) = length(bytes, limits)?;
            string(length, bytes, out, at)
        }
        15 => {
            let [column] = first(bytes, limits)?;
            let (length, bytes) = length(&bytes[1..], limits)?;
            opaque(column, bytes.get(..length)?, out, at)
        }
        _ => None,
    }
}

#[inline(always)]
fn word<const WIDTH: usize>(bytes: &[u8]) -> usize {
    if WIDTH == 4 {
        u32::from_le_bytes([bytes[0], bytes[1], bytes[2], bytes[3]]) as usize
    } else {
        u16::from_le_bytes([bytes[0], bytes[1]]).into()
    }
}

fn write_container<const WIDTH: usize, const IS_OBJECT: bool>(
    bytes: &[u8],
    limits: &mut Limits,
    out: &mut [u8],
    at: usize,
) -> Option<usize> {
    limits.depth = limits.depth.checked_sub(1)?;
    let head = bytes.get(..2 * WIDTH)?;
    let (count, size) = (word::<WIDTH>(head), word::<WIDTH>(&head[WIDTH..]));
    let bytes = bytes.get(..size)?;
    let key_length = if IS_OBJECT { WIDTH + 2 } else { 0 };
    let values = 2 * WIDTH + count * key_length;
    let header = values + count * (WIDTH + 1);
    limits.pay(header)?;
    let mut keys = bytes.get(2 * WIDTH..values)?.chunks_exact(WIDTH + 2);
    let [open, close] = if IS_OBJECT { *b"{}" } else { *b"[]" };
    let mut end = at;
    for entry in bytes.get(values..header)?.chunks_exact(WIDTH + 1) {
        // The first comma is where the array or the object begins.
        out[end] = b',';
        end += 1;
        if IS_OBJECT {
            let key = keys.next()?;
            let length = word::<2>(&key[WIDTH..]);
            limits.pay(length)?;
            end = string(length, bytes.get(header.max(word::<WIDTH>(key))..)?, out, end)?;
            out[end] = b':';
            end += 1;
        }
        end = write_entry::<WIDTH>(entry, bytes, header, limits, out, end)?;
    }
    out[at] = open;
    end = end.max(at + 1);
    out[end] = close;
    limits.depth += 1;
    Some(end + 1)
}

#[inline(always)]
fn write_entry<const WIDTH: usize>(
    entry: &[u8],
    bytes: &[u8],
    header: usize,
    limits: &mut Limits,
    out: &mut [u8],
    at: usize,
) -> Option<usize> {
    let (kind, inlined) = (entry[0], &entry[1..]);
    match kind {
        4 => literal(inlined[0], out, at),
        5 => Some(signed((word::<2>(inlined) as i16).into(), out, at)),
        6 => Some(unsigned(word::<2>(inlined) as u64, out, at)),
        7 if WIDTH == 4 => Some(signed((word::<4>(inlined) as i32).into(), out, at)),
        8 if WIDTH == 4 => Some(unsigned(word::<4>(inlined) as u64, out, at)),
        _ => {
            let offset = Some(word::<WIDTH>(inlined)).filter(|offset| *offset >= header)?;
            write_value(kind, bytes.get(offset..)?, limits, out, at)
        }
    }
}

/// A length of one to five bytes, of seven bits each, and the bytes behind it. Both are paid for.
#[inline(always)]
fn length<'a>(bytes: &'a [u8], limits: &mut Limits) -> Option<(usize, &'a [u8])> {
    let mut length = 0;
    for (index, byte) in bytes.iter().take(5).enumerate() {
        length |= usize::from(byte & 0x7f) << (7 * index);
        if *byte < 0x80 {
            limits.pay(index + 1 + length)?;
            return (length >> 32 == 0).then(|| (length, &bytes[index + 1..]));
        }
    }
    None
}

/// None of bytes that aren't UTF-8, which are written as an object.
#[inline(always)]
fn string(length: usize, bytes: &[u8], out: &mut [u8], at: usize) -> Option<usize> {
    let mut rest = bytes;
    let end = text(length, &mut rest, out, at)?;
    (out[at] == b'"').then_some(end)
}

#[inline(always)]
fn literal(number: u8, out: &mut [u8], at: usize) -> Option<usize> {
    let (text, length) = match number {
        0 => (b"null ", 4),
        1 => (b"true ", 4),
        2 => (b"false", 5),
        _ => return None,
    };
    *part(out, at) = *text;
    Some(at + length)
}

#[inline(always)]
fn unsigned(number: u64, out: &mut [u8], at: usize) -> usize {
    at + write_number(part(out, at), number)
}

#[inline(always)]
fn signed(number: i64, out: &mut [u8], at: usize) -> usize {
    at + write_signed(part(out, at), number)
}

/// A number of at most 15 digits, six of them at most behind the point: no other number of so few digits reads back as it. Any other
/// one goes by the standard library.
#[inline(always)]
fn double(number: f64, out: &mut [u8], at: usize) -> Option<usize> {
    let size = number.abs();
    let millionths = (size * 1e6 + 0.5) as i64;
    if millionths >= 1_000_000_000_000_000 || millionths as f64 / 1e6 != size {
        return any_double(number, out, at);
    }
    let millionths = millionths as u64;
    let place: &mut [u8; 64] = part(out, at);
    place[0] = b'-';
    let mut end = usize::from(number.is_sign_negative());
    end += write_number(part(place, end), millionths / 1_000_000);
    let point: &mut [u8; 9] = part(place, end & 31);
    let digits = six_digits((millionths % 1_000_000) as u32);
    point[0] = b'.';
    point[1..].copy_from_slice(&digits);
    // The digits without the zeros behind them, but for the first.
    let last = u64::from_le_bytes(digits) & 0x0f0f_0f0f_0f0f | 1;
    Some(at + end + 2 + (63 - last.leading_zeros() as usize) / 8)
}

#[cold]
fn any_double(number: f64, out: &mut [u8], at: usize) -> Option<usize> {
    let text = double_text(number)?;
    out[at..][..text.len()].copy_from_slice(text.as_bytes());
    Some(at + text.len())
}

/// As MySQL lays it out. None if it isn't finite.
fn double_text(number: f64) -> Option<String> {
    if !number.is_finite() {
        return None;
    }
    let shortest = format!("{:e}", number.abs());
    let (mantissa, exponent) = shortest.split_once('e')?;
    let digits = mantissa.replace('.', "");
    let point = exponent.parse::<i32>().ok()? + 1;
    let count = digits.len() as i32;
    let sign = if number.is_sign_negative() { "-" } else { "" };
    Some(if point < -14 || point > 15 && count <= point {
        format!("{sign}{mantissa}e{}", point - 1)
    } else if point <= 0 {
        format!("{sign}0.{}{digits}", "0".repeat(-point as usize))
    } else if count <= point {
        format!("{sign}{digits}{}.0", "0".repeat((point - count) as usize))
    } else {
        let (whole, fraction) = digits.split_at(point as usize);
        format!("{sign}{whole}.{fraction}")
    })
}

#[inline(always)]
fn opaque(column: u8, bytes: &[u8], out: &mut [u8], at: usize) -> Option<usize> {
    match column {
        DECIMAL => decimal(bytes, out, at),
        DATE | DATETIME => moment(column, i64::from_le_bytes(bytes.try_into().ok()?), out, at),
        _ => None,
    }
}

/// A decimal number of at most 17 digits before the point and nine behind it.
#[inline(always)]
fn decimal(bytes: &[u8], out: &mut [u8], at: usize) -> Option<usize> {
    let [precision, scale, digits @ ..] = bytes else { return None };
    let whole = precision.checked_sub(*scale)?;
    if whole >= 18 || *scale > 9 || *precision == 0 {
        return None;
    }
    let is_negative = digits.first()? & 0x80 == 0;
    let mut groups = Groups { digits, mask: if is_negative { 0xff } else { 0 }, top: 0x80 };
    let (lead, nine) = (groups.take(whole % 9)?, groups.take(whole / 9 * 9)?);
    let tail = groups.take(*scale)?;
    if !groups.digits.is_empty() {
        return None;
    }
    out[at] = b'-';
    let mut end = at + usize::from(is_negative);
    end = unsigned(if whole >= 9 { lead * 1_000_000_000 + nine } else { lead }, out, end);
    if *scale > 0 {
        out[end] = b'.';
        write_padded(&mut out[end + 1..][..usize::from(*scale)], tail);
        end += 1 + usize::from(*scale);
    }
    Some(end)
}

/// The bytes of digits that are left. Those of a negative number are complemented, and the top bit of the first one is the sign.
struct Groups<'a> {
    digits: &'a [u8],
    mask: u8,
    top: u8,
}

impl Groups<'_> {
    /// The next group, of at most nine digits.
    #[inline(always)]
    fn take(&mut self, count: u8) -> Option<u64> {
        let (group, rest) = self.digits.split_at_checked(usize::from(count + 1 - count / 9 * 2) / 2)?;
        self.digits = rest;
        let mut number = 0;
        for byte in group {
            number = number << 8 | u64::from(byte ^ self.mask ^ self.top);
            self.top = 0;
        }
        (number < 10u64.pow(count.into())).then_some(number)
    }
}

#[inline(always)]
fn write_padded(place: &mut [u8], mut number: u64) {
    for digit in place.iter_mut().rev() {
        *digit = b'0' + (number % 10) as u8;
        number /= 10;
    }
}

/// A DATE, or a DATETIME with microseconds. None of one below 0, of a year from 10,000 on, or of a million microseconds or more.
#[inline(always)]
fn moment(column: u8, packed: i64, out: &mut [u8], at: usize) -> Option<usize> {
    let (moment, microseconds) = (u64::try_from(packed).ok()? >> 24, packed as u32 & 0xff_ffff);
    let (months, time) = ((moment >> 22) as u32, moment as u32 & 0x3f_ffff);
    if months >= 13 * 10_000 || microseconds >= 1_000_000 {
        return None;
    }
    let place: &mut [u8; 40] = part(out, at);
    write_moment(place, [months / 13, months % 13, time >> 17], [time >> 12 & 31, time >> 6 & 63, time & 63]);
    if column == DATE {
        place[11] = b'"';
        return Some(at + 12);
    }
    place[20] = b'.';
    place[21..29].copy_from_slice(&six_digits(microseconds));
    place[27] = b'"';
    Some(at + 28)
}

#[cfg(test)]
mod tests {
    use super::*;

    fn written(document: &[u8]) -> Option<String> {
        let mut out = vec![0; 6 * document.len() + 128];
        let end = write_document(document, &mut out, 0)?;
        String::from_utf8(out[8..end - 1].to_vec()).ok()
    }

    #[test]
    fn doubles() {
        for (number, text) in [
            (0.0, "0.0"),
            (-0.0, "-0.0"),
            (12.5, "12.5"),
            (-89.99999, "-89.99999"),
            (0.000001, "0.000001"),
            (1e-7, "0.0000001"),
            (1.5e-20, "1.5e-20"),
            (1e14, "100000000000000.0"),
            (1e15, "1e15"),
            (123456789.125, "123456789.125"),
            (1234567890123456.5, "1234567890123456.5"),
        ] {
            assert_eq!(written(&[&[11], &f64::to_le_bytes(number)[..]].concat()).unwrap(), text);
        }
    }

    #[test]
    fn decimals() {
        for (bytes, text) in [
            (&b"\x05\x02\x80\x03\x32"[..], "3.50"),
            (b"\x05\x02\x7f\xfc\xcd", "-3.50"),
            (b"\x0c\x02\x81\x0d\xfb\x38\xd2\x0c", "1234567890.12"),
            (b"\x09\x00\x80\x00\x00\x07", "7"),
        ] {
            assert_eq!(written(&[&[15, DECIMAL, bytes.len() as u8][..], bytes].concat()).unwrap(), text);
        }
    }

    #[test]
    fn containers() {
        assert_eq!(written(b"\x02\0\0\x04\0").unwrap(), "[]");
        assert_eq!(written(b"\0\x01\0\x0c\0\x0b\0\x01\0\x05\x01\0a").unwrap(), "{\"a\":1}");
        assert_eq!(written(b"\x03\x02\0\0\0\x12\0\0\0\x05\xff\xff\xff\xff\x07\xfe\xff\xff\xff").unwrap(), "[-1,-2]");
        // An array that names its header, and one that names a byte beyond its size.
        assert_eq!(written(b"\x02\x01\0\x07\0\x02\0\0"), None);
        assert_eq!(written(b"\x02\x01\0\x07\0\x0c\x07\0\x01a"), None);
    }
}
