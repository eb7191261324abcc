//! Digits, by tables and by arithmetic on eight digits at once.

const ZEROS: u64 = 0x3030_3030_3030_3030;

/// The two digits of each number below 100. A power of two of them, so that a masked index is in bounds.
pub static PAIRS: [[u8; 2]; 128] = pairs();

const fn pairs() -> [[u8; 2]; 128] {
    let mut pairs = [[b'0'; 2]; 128];
    let mut number = 0;
    while number < 100 {
        pairs[number] = [b'0' + (number / 10) as u8, b'0' + (number % 10) as u8];
        number += 1;
    }
    pairs
}

#[inline(always)]
pub fn pair(number: u32) -> [u8; 2] {
    PAIRS[(number & 127) as usize]
}

/// The eight digits of a number below 10^8, the first one in the lowest byte.
#[inline(always)]
fn eight(number: u32) -> u64 {
    let halves = u64::from(number / 10_000) | u64::from(number % 10_000) << 32;
    let hundreds = (halves * 10_486 >> 20) & 0x7f_0000_007f;
    let hundreds = hundreds | (halves - hundreds * 100) << 16;
    let tens = (hundreds * 103 >> 10) & 0x000f_000f_000f_000f;
    tens | (hundreds - tens * 10) << 8
}

/// The eight digits of a number below 10^8.
#[inline(always)]
pub fn eight_digits(number: u32) -> [u8; 8] {
    (eight(number) + ZEROS).to_le_bytes()
}

/// The last six digits of a number below 10^6, and two bytes more.
#[inline(always)]
pub fn six_digits(number: u32) -> [u8; 8] {
    ((eight(number) + ZEROS) >> 16).to_le_bytes()
}

/// The digits of a number below 10^8 other than 0, without zeros in front, and how many they are.
#[inline(always)]
fn shortest(number: u32) -> ([u8; 8], usize) {
    let digits = eight(number);
    let zeros = digits.trailing_zeros() / 8;
    (((digits + ZEROS) >> (8 * zeros)).to_le_bytes(), 8 - zeros as usize)
}

#[inline(always)]
fn store(place: &mut [u8; 32], at: usize, digits: [u8; 8]) {
    let at = at & 15;
    place[at..at + 8].copy_from_slice(&digits);
}

/// Writes a number at the start of the place, and returns its length.
#[inline(always)]
pub fn write_number(place: &mut [u8; 32], number: u64) -> usize {
    if number < 10 {
        place[0] = b'0' + number as u8;
        1
    } else if number < 10_000 {
        write_short(place, number as u32)
    } else if number < 100_000_000 {
        let (digits, length) = shortest(number as u32);
        store(place, 0, digits);
        length
    } else {
        write_long(place, number)
    }
}

/// The same for one from 10 on and below 10^4.
#[inline(always)]
fn write_short(place: &mut [u8; 32], number: u32) -> usize {
    let digits = u32::from_le_bytes(four_digits(number));
    let zeros = u32::from(number < 100) + u32::from(number < 1_000);
    place[..4].copy_from_slice(&(digits >> (8 * zeros)).to_le_bytes());
    4 - zeros as usize
}

/// The four digits of a number below 10^4.
#[inline(always)]
pub fn four_digits(number: u32) -> [u8; 4] {
    let (high, low) = (pair(number / 100), pair(number % 100));
    [high[0], high[1], low[0], low[1]]
}

/// The same for one from 10^8 on.
#[inline(always)]
fn write_long(place: &mut [u8; 32], number: u64) -> usize {
    if number < 10_000_000_000_000_000 {
        let (high, low) = ((number / 100_000_000) as u32, (number % 100_000_000) as u32);
        let (digits, length) = shortest(high);
        store(place, 0, digits);
        store(place, length, eight_digits(low));
        length + 8
    } else {
        write_longest(place, number)
    }
}

#[cold]
fn write_longest(place: &mut [u8; 32], number: u64) -> usize {
    let (high, rest) = ((number / 10_000_000_000_000_000) as u32, number % 10_000_000_000_000_000);
    let (digits, length) = shortest(high);
    store(place, 0, digits);
    store(place, length, eight_digits((rest / 100_000_000) as u32));
    store(place, length + 8, eight_digits((rest % 100_000_000) as u32));
    length + 16
}

#[inline(always)]
pub fn write_signed(place: &mut [u8; 33], number: i64) -> usize {
    let is_negative = number < 0;
    place[0] = b'-';
    let from = usize::from(is_negative);
    let place = place[from..].first_chunk_mut().unwrap();
    from + write_number(place, number.unsigned_abs())
}

#[cfg(test)]
mod tests {
    use super::*;

    #[test]
    fn numbers() {
        let mut power = 1u64;
        let mut numbers = vec![0, u64::MAX];
        for _ in 0..20 {
            numbers.extend([
                power.wrapping_sub(1),
                power,
                power.wrapping_add(1),
                power.wrapping_mul(3).wrapping_add(7),
            ]);
            power = power.wrapping_mul(10);
        }
        for bit in 0..64 {
            numbers.extend([1u64 << bit, (1u64 << bit) - 1]);
        }
        for number in numbers {
            let mut place = [0; 32];
            let length = write_number(&mut place, number);
            assert_eq!(&place[..length], number.to_string().as_bytes());
            let mut place = [0; 33];
            let length = write_signed(&mut place, number as i64);
            assert_eq!(&place[..length], (number as i64).to_string().as_bytes());
        }
    }
}
