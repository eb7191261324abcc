//! Base64 (RFC 4648), in a text whose growth may be refused.
use crate::memory::{AllocError, TryGrowText};
use std::str;

/// The standard alphabet, with padding.
pub struct Standard;

/// The standard alphabet, with padding.
pub const STANDARD: Standard = Standard;

const ALPHABET: &[u8; 64] = b"ABCDEFGHIJKLMNOPQRSTUVWXYZabcdefghijklmnopqrstuvwxyz0123456789+/";

impl Standard {
    /// Appends the text of the bytes.
    pub fn encode_string(&self, bytes: &[u8], text: &mut String) -> Result<(), AllocError> {
        for chunk in bytes.chunks(3) {
            let number = chunk.iter().fold(0, |number, byte| number << 8 | usize::from(*byte)) << (8 * (3 - chunk.len()));
            let mut digits = [b'='; 4];
            for (place, digit) in digits.iter_mut().enumerate().take(chunk.len() + 1) {
                *digit = ALPHABET[number >> (18 - 6 * place) & 63];
            }
            text.try_push_str(str::from_utf8(&digits).unwrap_or_default())?;
        }
        Ok(())
    }
}

#[cfg(test)]
mod tests {
    use super::STANDARD;

    /// The test vectors of RFC 4648.
    #[test]
    fn vectors_of_the_standard() {
        for (bytes, wanted) in [
            (&b""[..], ""),
            (b"f", "Zg=="),
            (b"fo", "Zm8="),
            (b"foo", "Zm9v"),
            (b"foob", "Zm9vYg=="),
            (b"fooba", "Zm9vYmE="),
            (b"foobar", "Zm9vYmFy"),
            (b"\xfb\xef\xff", "++//"),
        ] {
            let mut text = String::from("-");
            assert_eq!(STANDARD.encode_string(bytes, &mut text), Ok(()));
            assert_eq!(text, format!("-{wanted}"));
        }
    }
}
