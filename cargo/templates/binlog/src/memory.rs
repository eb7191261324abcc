//! Memory that may be refused: what the proved sources call of their standard library, over Rust's own.
use std::borrow::Cow;
use std::collections::TryReserveError;
use std::fmt;

/// An allocation failed.
#[derive(Clone, Copy, Debug, PartialEq, Eq, thiserror::Error)]
#[error("out of memory")]
pub struct AllocError;

impl From<TryReserveError> for AllocError {
    fn from(_: TryReserveError) -> Self {
        AllocError
    }
}

impl From<TryReserveError> for crate::Error {
    fn from(_: TryReserveError) -> Self {
        crate::Error::Memory
    }
}

impl From<AllocError> for std::io::Error {
    fn from(error: AllocError) -> Self {
        std::io::Error::new(std::io::ErrorKind::OutOfMemory, error)
    }
}

/// Vectors whose growth may be refused; they are unchanged then.
pub trait TryGrow<T> {
    /// Appends an item.
    fn try_push(&mut self, item: T) -> Result<(), AllocError>;

    /// Puts an item at an index, and moves those behind it.
    fn try_insert(&mut self, at: usize, item: T) -> Result<(), AllocError>;

    /// Appends copies of the items.
    fn try_extend_from_slice(&mut self, items: &[T]) -> Result<(), AllocError>
    where
        T: Copy;

    /// Appends copies of an item, or takes items from the end, up to this length.
    fn try_resize(&mut self, len: usize, item: T) -> Result<(), AllocError>
    where
        T: Copy;
}

impl<T> TryGrow<T> for Vec<T> {
    #[inline]
    fn try_push(&mut self, item: T) -> Result<(), AllocError> {
        self.try_reserve(1)?;
        self.push(item);
        Ok(())
    }

    #[inline]
    fn try_insert(&mut self, at: usize, item: T) -> Result<(), AllocError> {
        self.try_reserve(1)?;
        self.insert(at, item);
        Ok(())
    }

    #[inline]
    fn try_extend_from_slice(&mut self, items: &[T]) -> Result<(), AllocError>
    where
        T: Copy,
    {
        self.try_reserve(items.len())?;
        self.extend_from_slice(items);
        Ok(())
    }

    #[inline]
    fn try_resize(&mut self, len: usize, item: T) -> Result<(), AllocError>
    where
        T: Copy,
    {
        self.try_reserve(len.saturating_sub(self.len()))?;
        self.resize(len, item);
        Ok(())
    }
}

/// Texts whose growth may be refused; they are unchanged then.
pub trait TryGrowText {
    /// Appends a text.
    fn try_push_str(&mut self, more: &str) -> Result<(), AllocError>;

    /// Appends a character.
    fn try_push_char(&mut self, character: char) -> Result<(), AllocError>;
}

impl TryGrowText for String {
    #[inline]
    fn try_push_str(&mut self, more: &str) -> Result<(), AllocError> {
        self.try_reserve(more.len())?;
        self.push_str(more);
        Ok(())
    }

    #[inline]
    fn try_push_char(&mut self, character: char) -> Result<(), AllocError> {
        self.try_reserve(character.len_utf8())?;
        self.push(character);
        Ok(())
    }
}

/// Iterators whose items are made a vector, which may be refused.
pub trait TryCollect: Iterator + Sized {
    /// The items, in order.
    fn try_collect_vec(self) -> Result<Vec<Self::Item>, AllocError> {
        let mut items = Vec::new();
        for item in self {
            items.try_push(item)?;
        }
        Ok(items)
    }
}

impl<T: Iterator> TryCollect for T {}

/// Texts to which `write!` appends, and may be refused; what came before the refusal is appended then.
pub trait TryWrite {
    /// Appends a text with its arguments.
    fn write_fmt(&mut self, text: fmt::Arguments<'_>) -> Result<(), AllocError>;
}

impl TryWrite for String {
    fn write_fmt(&mut self, text: fmt::Arguments<'_>) -> Result<(), AllocError> {
        fmt::write(&mut Growing(self), text).map_err(|fmt::Error| AllocError)
    }
}

/// A text of which a refusal is an error of formatting.
struct Growing<'a>(&'a mut String);

impl fmt::Write for Growing<'_> {
    fn write_str(&mut self, more: &str) -> fmt::Result {
        self.0.try_push_str(more).map_err(|AllocError| fmt::Error)
    }
}

/// A vector of so many copies of a value.
pub fn vec_filled<T: Copy>(value: T, count: usize) -> Result<Vec<T>, AllocError> {
    let mut made = Vec::new();
    made.try_resize(count, value)?;
    Ok(made)
}

/// An empty vector with room for as many items.
#[inline]
pub fn vec_with_capacity<T>(count: usize) -> Result<Vec<T>, AllocError> {
    let mut items = Vec::new();
    items.try_reserve_exact(count)?;
    Ok(items)
}

/// A copy of the items.
#[inline]
pub fn vec_from_slice<T: Copy>(items: &[T]) -> Result<Vec<T>, AllocError> {
    let mut copy = vec_with_capacity(items.len())?;
    copy.extend_from_slice(items);
    Ok(copy)
}

/// A copy of the text.
pub fn string_from(text: &str) -> Result<String, AllocError> {
    let mut copy = String::new();
    copy.try_reserve_exact(text.len())?;
    copy.push_str(text);
    Ok(copy)
}

/// A text with its arguments.
pub fn try_format(text: fmt::Arguments<'_>) -> Result<String, AllocError> {
    let mut made = String::new();
    TryWrite::write_fmt(&mut made, text)?;
    Ok(made)
}

/// Owned bytes or text, whose memory may be refused.
pub trait TryIntoOwned {
    /// The owned form.
    type Owned;

    /// The owned form of the value, copied where it is borrowed.
    fn try_into_owned(self) -> Result<Self::Owned, AllocError>;
}

impl TryIntoOwned for Cow<'_, [u8]> {
    type Owned = Vec<u8>;

    fn try_into_owned(self) -> Result<Vec<u8>, AllocError> {
        match self {
            Cow::Borrowed(bytes) => vec_from_slice(bytes),
            Cow::Owned(bytes) => Ok(bytes),
        }
    }
}

impl TryIntoOwned for Cow<'_, str> {
    type Owned = String;

    fn try_into_owned(self) -> Result<String, AllocError> {
        match self {
            Cow::Borrowed(text) => string_from(text),
            Cow::Owned(text) => Ok(text),
        }
    }
}

/// The bytes as UTF-8 text, with U+FFFD in place of each malformed sequence; as `String::from_utf8_lossy`, but that memory
/// may be refused.
pub fn try_lossy_text(bytes: &[u8]) -> Result<Cow<'_, str>, AllocError> {
    if let Ok(text) = std::str::from_utf8(bytes) {
        return Ok(Cow::Borrowed(text));
    }
    let mut text = String::new();
    for chunk in bytes.utf8_chunks() {
        let malformed = if chunk.invalid().is_empty() { "" } else { "\u{fffd}" };
        text.try_reserve(chunk.valid().len() + malformed.len())?;
        text.push_str(chunk.valid());
        text.push_str(malformed);
    }
    Ok(Cow::Owned(text))
}
