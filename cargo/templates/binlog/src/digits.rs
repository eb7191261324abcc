//! Decimal digits of numbers, at a place of the caller's.

/// The two digits of each number below 100.
static PAIRS: [[u8; 2]; 100] = pairs();

const fn pairs() -> [[u8; 2]; 100] {
    let mut pairs = [[b'0'; 2]; 100];
    let mut number = 0;
    while number < 100 {
        pairs[number] = [b'0' + number as u8 / 10, b'0' + number as u8 % 10];
        number += 1;
    }
    pairs
}

/// Writes the decimal digits of a number so that they end in front of `end`, and answers where they begin.
#[inline(always)]
pub fn write_digits(number: u64, bytes: &mut [u8], end: usize) -> usize {
    let mut free = &mut bytes[..end];
    let mut left = number;
    while left > u64::from(u32::MAX) {
        free = write_four((left % 10_000) as u32, free);
        left /= 10_000;
    }
    write_number(left as u32, free).len()
}

/// Writes a number at the end of the bytes, and answers those in front of it.
#[inline(always)]
fn write_number(number: u32, mut free: &mut [u8]) -> &mut [u8] {
    let mut left = number;
    while left >= 10_000 {
        free = write_four(left % 10_000, free);
        left /= 10_000;
    }
    if left >= 100 {
        free = write_last(PAIRS[(left % 100) as usize], free);
        left /= 100;
    }
    if left >= 10 {
        write_last(PAIRS[left as usize], free)
    } else {
        write_last([b'0' + left as u8], free)
    }
}

/// Writes the four digits of a number below 10,000 at the end of the bytes.
#[inline(always)]
fn write_four(number: u32, free: &mut [u8]) -> &mut [u8] {
    let [first, second] = PAIRS[(number / 100) as usize];
    let [third, fourth] = PAIRS[(number % 100) as usize];
    write_last([first, second, third, fourth], free)
}

/// Writes N digits at the end of the bytes.
#[inline(always)]
fn write_last<const N: usize>(digits: [u8; N], free: &mut [u8]) -> &mut [u8] {
    match free.split_last_chunk_mut() {
        Some((free, place)) => {
            *place = digits;
            free
        }
        None => panic!("fewer than {N} bytes"),
    }
}

#[cfg(test)]
mod tests {
    use super::write_digits;

    /// Numbers of each length: the least and the greatest ones, and some with zeros between other digits.
    fn numbers() -> impl Iterator<Item = u64> {
        let powers = (0..20).map(|exponent| 10u64.pow(exponent));
        powers
            .flat_map(|power| {
                [
                    power - 1,
                    power,
                    power + 1,
                    power + power / 100,
                    power.saturating_mul(7),
                ]
            })
            .chain([u64::from(u32::MAX), u64::from(u32::MAX) + 1, u64::MAX])
    }

    #[test]
    fn the_digits_end_at_the_place_and_nothing_else_is_written() {
        for number in numbers() {
            let text = number.to_string();
            for end in text.len()..25 {
                let mut bytes = [b'.'; 25];
                let start = end - text.len();
                assert_eq!(write_digits(number, &mut bytes, end), start);
                assert_eq!(&bytes[start..end], text.as_bytes());
                assert!(
                    bytes[..start]
                        .iter()
                        .chain(&bytes[end..])
                        .all(|&byte| byte == b'.')
                );
            }
        }
    }

    #[test]
    #[should_panic(expected = "fewer than 4 bytes")]
    fn digits_that_have_no_place_are_refused() {
        write_digits(12_345, &mut [0; 9], 3);
    }
}
