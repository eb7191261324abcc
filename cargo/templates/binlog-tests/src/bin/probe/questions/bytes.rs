//! Bytes in a question, and in an answer.

/// How no bytes are written, in questions and in answers.
pub(crate) const NOTHING: &str = "-";

/// The bytes of hexadecimal digits, if they are such.
pub(crate) fn bytes_of(digits: &str) -> Option<Vec<u8>> {
    if digits == NOTHING {
        return Some(Vec::new());
    }
    let (pairs, rest) = digits.as_bytes().as_chunks::<2>();
    if !rest.is_empty() {
        return None;
    }
    pairs.iter().map(|&[high, low]| Some(digit(high)? << 4 | digit(low)?)).collect()
}

fn digit(byte: u8) -> Option<u8> {
    char::from(byte).to_digit(16)?.try_into().ok()
}

/// The hexadecimal digits of bytes.
pub(crate) fn digits_of(bytes: &[u8]) -> String {
    bytes.iter().map(|byte| format!("{byte:02x}")).collect()
}

/// The same, or how no bytes are written.
pub(crate) fn shown(bytes: &[u8]) -> String {
    if bytes.is_empty() { NOTHING.to_owned() } else { digits_of(bytes) }
}

/// The number and the bytes of a question that has both.
pub(crate) fn limited_bytes_of(asked: &str) -> Option<(usize, Vec<u8>)> {
    let (limit, digits) = asked.split_once(' ')?;
    Some((limit.parse().ok()?, bytes_of(digits)?))
}
