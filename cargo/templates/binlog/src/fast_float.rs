//! Texts as floating-point numbers.
use std::str::FromStr;

/// The number that is nearest to the text.
pub fn parse<T: FromStr, S: AsRef<str>>(text: S) -> Result<T, T::Err> {
    text.as_ref().parse()
}
