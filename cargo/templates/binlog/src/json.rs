//! Texts and members' names as JSON.
use crate::memory::{AllocError, TryGrow};

/// Whether a text is a number of JSON.
pub fn is_number(text: &str) -> bool {
    let size = text.strip_prefix('-').unwrap_or(text);
    let (mantissa, exponent) = parts(size, &['e', 'E']);
    let (whole, fraction) = parts(mantissa, &['.']);
    let has_zeros = whole.len() > 1 && whole.starts_with('0');
    let exponent = exponent.map(|text| text.strip_prefix(['+', '-']).unwrap_or(text));
    !has_zeros && [Some(whole), fraction, exponent].into_iter().flatten().all(are_digits)
}

/// What is in front of the first of these characters, and what is behind it, if there is one.
fn parts<'a>(text: &'a str, between: &[char]) -> (&'a str, Option<&'a str>) {
    match text.split_once(between) {
        Some((front, behind)) => (front, Some(behind)),
        None => (text, None),
    }
}

fn are_digits(text: &str) -> bool {
    !text.is_empty() && text.bytes().all(|byte| byte.is_ascii_digit())
}

/// Writes JSON behind the bytes of a vector.
pub struct Writer(Vec<u8>);

impl Writer {
    /// A writer behind these bytes.
    pub fn new(bytes: Vec<u8>) -> Self {
        Writer(bytes)
    }

    /// Writes a string: quotation marks, backslashes and control characters are escaped.
    pub fn string(&mut self, text: &str) -> Result<(), AllocError> {
        self.0.try_push(b'"')?;
        for byte in text.bytes() {
            match byte {
                b'"' | b'\\' => self.0.try_extend_from_slice(&[b'\\', byte])?,
                0x08 => self.0.try_extend_from_slice(b"\\b")?,
                0x0c => self.0.try_extend_from_slice(b"\\f")?,
                b'\n' => self.0.try_extend_from_slice(b"\\n")?,
                b'\r' => self.0.try_extend_from_slice(b"\\r")?,
                b'\t' => self.0.try_extend_from_slice(b"\\t")?,
                0..0x20 => {
                    let digit = |number| b"0123456789abcdef"[usize::from(number)];
                    let escape = [b'\\', b'u', b'0', b'0', digit(byte / 16), digit(byte % 16)];
                    self.0.try_extend_from_slice(&escape)?;
                }
                _ => self.0.try_push(byte)?,
            }
        }
        self.0.try_push(b'"')
    }

    /// Writes a member's name, and the colon behind it.
    pub fn key(&mut self, name: &str) -> Result<(), AllocError> {
        self.string(name)?;
        self.0.try_push(b':')
    }

    /// The bytes.
    pub fn into_inner(self) -> Vec<u8> {
        self.0
    }
}
