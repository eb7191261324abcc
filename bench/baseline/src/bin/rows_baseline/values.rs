//! The values of columns.

use crate::columns::{Column, Decimal};
use crate::sums::ValueSums;

const POWERS_OF_10: [u32; 10] = [
    1,
    10,
    100,
    1_000,
    10_000,
    100_000,
    1_000_000,
    10_000_000,
    100_000_000,
    1_000_000_000,
];
/// The bytes of a group of so many digits.
const GROUP_LENGTHS: [usize; 10] = [0, 1, 1, 2, 2, 3, 3, 4, 4, 4];

/// Takes a value and adds it up. None if the bytes end within it, or it is out of range.
#[inline(always)]
pub fn count(sums: &mut ValueSums, column: Column, rest: &mut &[u8]) -> Option<()> {
    match column {
        Column::Nothing => sums.nulls += 1,
        Column::Integer(1) => add(&mut sums.integers, little::<1>(rest)?),
        Column::Integer(4) => add(&mut sums.integers, little::<4>(rest)?),
        Column::Integer(8) => add(&mut sums.integers, little::<8>(rest)?),
        Column::Integer(width) => add(&mut sums.integers, little_of(width, rest)?),
        Column::Float => add(&mut sums.floats, little::<4>(rest)?),
        Column::Double => add(&mut sums.floats, little::<8>(rest)?),
        Column::Date => add(&mut sums.years, little::<3>(rest)? / 512),
        Column::Year => add(&mut sums.years, little::<1>(rest)?),
        Column::Timestamp => add(&mut sums.seconds, little::<4>(rest)?),
        Column::Time => {
            let bits = little::<3>(rest)?;
            let distance = if bits >= 1 << 23 { (1 << 24) - bits } else { bits };
            add(&mut sums.years, distance / 10_000);
        }
        Column::DateTime => add(&mut sums.years, little::<8>(rest)? / 10_000_000_000),
        Column::Bits(count) => {
            let bits = big_of(count.div_ceil(8), rest)?;
            if count < 64 && bits >> count != 0 {
                return None;
            }
            add(&mut sums.integers, bits);
        }
        Column::Timestamp2(digits) => {
            let seconds = big::<4>(rest)?;
            add(&mut sums.microseconds, fraction(digits, rest)?);
            add(&mut sums.seconds, seconds);
        }
        Column::DateTime2(digits) => {
            let moment = big::<5>(rest)?.checked_sub(1 << 39)?;
            add(&mut sums.microseconds, fraction(digits, rest)?);
            add(&mut sums.years, (moment >> 22) / 13);
        }
        Column::Time2(digits) => count_time2(sums, digits, rest)?,
        Column::Decimal(decimal) => add(&mut sums.decimals, whole_part(decimal, rest)?),
        Column::Counted(1, most) => {
            let length = little::<1>(rest)?;
            add(&mut sums.bytes, text(length, most, rest)?);
        }
        Column::Counted(2, most) => {
            let length = little::<2>(rest)?;
            add(&mut sums.bytes, text(length, most, rest)?);
        }
        Column::Counted(width, most) => {
            let length = little_of(width, rest)?;
            add(&mut sums.bytes, text(length, most, rest)?);
        }
        Column::Vector(width) => {
            let length = little_of(width, rest)?;
            if length % 4 != 0 {
                return None;
            }
            add(&mut sums.bytes, text(length, u32::MAX, rest)?);
        }
    }
    Some(())
}

#[inline(always)]
fn add(sum: &mut u64, number: u64) {
    *sum = sum.wrapping_add(number);
}

#[inline(always)]
fn take<const COUNT: usize>(rest: &mut &[u8]) -> Option<[u8; COUNT]> {
    let (bytes, left) = rest.split_first_chunk()?;
    *rest = left;
    Some(*bytes)
}

#[inline(always)]
fn little<const COUNT: usize>(rest: &mut &[u8]) -> Option<u64> {
    let mut padded = [0; 8];
    padded[..COUNT].copy_from_slice(&take::<COUNT>(rest)?);
    Some(u64::from_le_bytes(padded))
}

#[inline(always)]
fn big<const COUNT: usize>(rest: &mut &[u8]) -> Option<u64> {
    let mut padded = [0; 8];
    padded[8 - COUNT..].copy_from_slice(&take::<COUNT>(rest)?);
    Some(u64::from_be_bytes(padded))
}

fn little_of(width: u8, rest: &mut &[u8]) -> Option<u64> {
    let (bytes, left) = rest.split_at_checked(width.into())?;
    *rest = left;
    Some(bytes.iter().rev().fold(0, |number, byte| number << 8 | u64::from(*byte)))
}

fn big_of(width: u8, rest: &mut &[u8]) -> Option<u64> {
    let (bytes, left) = rest.split_at_checked(width.into())?;
    *rest = left;
    Some(bytes.iter().fold(0, |number, byte| number << 8 | u64::from(*byte)))
}

/// The microseconds of a fraction of so many decimal digits.
#[inline(always)]
fn fraction(digits: u8, rest: &mut &[u8]) -> Option<u64> {
    let microseconds = match digits {
        0 => return Some(0),
        1 | 2 => big::<1>(rest)? * 10_000,
        3 | 4 => big::<2>(rest)? * 100,
        _ => big::<3>(rest)?,
    };
    (microseconds < 1_000_000).then_some(microseconds)
}

#[cold]
fn count_time2(sums: &mut ValueSums, digits: u8, rest: &mut &[u8]) -> Option<()> {
    let width = digits.div_ceil(2);
    let number = big_of(3 + width, rest)?;
    let distance = number.abs_diff(1 << (23 + 8 * width));
    let fraction = distance % (1 << (8 * width));
    let microseconds = fraction * 100_u64.pow(3 - u32::from(width));
    let time = distance >> (8 * width);
    if microseconds >= 1_000_000 || time >= 1 << 22 {
        return None;
    }
    add(&mut sums.microseconds, microseconds);
    add(&mut sums.years, time >> 12);
    Some(())
}

/// The length of a text, whose bytes are skipped.
#[inline(always)]
fn text(length: u64, most: u32, rest: &mut &[u8]) -> Option<u64> {
    if length > most.into() {
        return None;
    }
    *rest = rest.get(length as usize..)?;
    Some(length)
}

/// The digits before the point as a number. All groups are looked at.
#[inline(always)]
fn whole_part(decimal: Decimal, rest: &mut &[u8]) -> Option<u64> {
    // All bits of a negative number are complemented, and the top bit is the sign.
    let complement = match rest.first()? {
        0..=127 => u32::MAX,
        _ => 0,
    };
    let mut sign = 0x80;
    let mut number = group(decimal.lead, complement, &mut sign, rest)?;
    for _ in 0..decimal.whole {
        let nine = group(9, complement, &mut sign, rest)?;
        number = number.wrapping_mul(1_000_000_000).wrapping_add(nine);
    }
    for _ in 0..decimal.part {
        group(9, complement, &mut sign, rest)?;
    }
    group(decimal.tail, complement, &mut sign, rest)?;
    Some(number)
}

/// The number of a group of so many digits. The sign is in the first group alone.
#[inline(always)]
fn group(digits: u8, complement: u32, sign: &mut u32, rest: &mut &[u8]) -> Option<u64> {
    let digits = usize::from(digits);
    let length = GROUP_LENGTHS[digits];
    let stored = match length {
        0 => return Some(0),
        1 => big::<1>(rest)?,
        2 => big::<2>(rest)?,
        3 => big::<3>(rest)?,
        _ => big::<4>(rest)?,
    } as u32;
    let bits = 8 * length as u32;
    let number = stored ^ (complement >> (32 - bits));
    let number = number ^ (*sign << (bits - 8));
    *sign = 0;
    (number < POWERS_OF_10[digits]).then_some(number.into())
}
