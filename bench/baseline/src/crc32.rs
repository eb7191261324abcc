//! CRC-32 as zlib has it, by tables that take eight bytes at a time, and four behind them.

/// The polynomial, its bits reversed.
const POLYNOMIAL: u32 = 0xedb8_8320;

type Table = [u32; 256];

/// The table `n` holds what each byte makes of a checksum that was 0, with `n`
/// zero bytes behind it.
static TABLES: [Table; 8] = tables();

#[inline(never)]
pub fn crc32(bytes: &[u8]) -> u32 {
    let (chunks, rest) = bytes.as_chunks::<8>();
    let mut crc = u32::MAX;
    for chunk in chunks {
        crc = after_chunk(crc, *chunk);
    }
    let rest = match rest.split_first_chunk::<4>() {
        Some((half, behind)) => {
            crc = after_half(crc, *half);
            behind
        }
        None => rest,
    };
    for byte in rest {
        crc = after_byte(&TABLES[0], crc, *byte);
    }
    !crc
}

fn after_chunk(crc: u32, chunk: [u8; 8]) -> u32 {
    let [a, b, c, d, e, f, g, h] = chunk;
    let [i, j, k, l] = crc.to_le_bytes();
    TABLES[7][usize::from(a ^ i)]
        ^ TABLES[6][usize::from(b ^ j)]
        ^ TABLES[5][usize::from(c ^ k)]
        ^ TABLES[4][usize::from(d ^ l)]
        ^ TABLES[3][usize::from(e)]
        ^ TABLES[2][usize::from(f)]
        ^ TABLES[1][usize::from(g)]
        ^ TABLES[0][usize::from(h)]
}

fn after_half(crc: u32, half: [u8; 4]) -> u32 {
    let [a, b, c, d] = half;
    let [i, j, k, l] = crc.to_le_bytes();
    TABLES[3][usize::from(a ^ i)]
        ^ TABLES[2][usize::from(b ^ j)]
        ^ TABLES[1][usize::from(c ^ k)]
        ^ TABLES[0][usize::from(d ^ l)]
}

const fn after_byte(table: &Table, crc: u32, byte: u8) -> u32 {
    table[(crc as u8 ^ byte) as usize] ^ (crc >> 8)
}

const fn tables() -> [Table; 8] {
    let mut tables = [first_table(); 8];
    let mut number = 1;
    while number < 8 {
        let mut byte = 0;
        while byte < 256 {
            tables[number][byte] = after_byte(&tables[0], tables[number - 1][byte], 0);
            byte += 1;
        }
        number += 1;
    }
    tables
}

const fn first_table() -> Table {
    let mut table = [0; 256];
    let mut byte = 0;
    while byte < 256 {
        table[byte] = after_eight_bits(byte as u32);
        byte += 1;
    }
    table
}

const fn after_eight_bits(byte: u32) -> u32 {
    let mut crc = byte;
    let mut bit = 0;
    while bit < 8 {
        let shifted = crc >> 1;
        crc = if crc % 2 == 0 {
            shifted
        } else {
            shifted ^ POLYNOMIAL
        };
        bit += 1;
    }
    crc
}

#[cfg(test)]
mod tests {
    use super::crc32;

    /// The check value of the catalogue of CRCs.
    #[test]
    fn check_value() {
        assert_eq!(crc32(b"123456789"), 0xcbf4_3926);
        assert_eq!(crc32(b""), 0);
    }
}
