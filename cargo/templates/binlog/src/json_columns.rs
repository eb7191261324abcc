//! The documents of JSON columns and the diffs of partial updates, as methods of the values of rows, and the texts of the errors of
//! documents. By hand: in the sources `binlog_values` and `binlog_images` know nothing of documents.
use crate::binary_json::{Document, JsonDiffError, JsonDiffs, JsonError, Refusal};
use crate::binary_json_writing::{JsonApplyError, JsonChangeError, JsonPathError, JsonWriteError};
use crate::binlog_images::ColumnValue;
use crate::binlog_values::Value;
use std::error::Error;
use std::fmt;

impl<'a> Value<'a> {
    /// The document of a JSON column, whose bytes are checked in full; None of a value of another type.
    ///
    /// # Errors
    ///
    /// Those of [`Document::read`]. Servers write no bytes that are refused.
    ///
    /// # Example
    ///
    /// ```
    /// use binlog::jsonb;
    /// use binlog::raw::ParseBuf;
    /// use binlog::values::{Column, Value};
    ///
    /// let column = Column::read(245, &mut ParseBuf(b"\x04"))?;
    /// let value = Value::read(&column, &mut ParseBuf(b"\x02\0\0\0\x04\x01"))?;
    /// let document = value.document().expect("a JSON column")?;
    /// assert!(matches!(document.value(), jsonb::Value::Bool(true)));
    /// # Ok::<(), Box<dyn std::error::Error>>(())
    /// ```
    pub fn document(&self) -> Option<Result<Document<'a>, JsonError>> {
        match self {
            Value::Json(bytes) => Some(Document::read(bytes)),
            _ => None,
        }
    }
}

impl<'a> ColumnValue<'a> {
    /// The diffs of a JSON column in the image after of a partial update; None of any other value.
    /// [`apply`](crate::jsondiff::apply) makes the document after of them and the [`document`](Value::document) of the image before.
    pub fn diffs(&self) -> Option<JsonDiffs<'a>> {
        match self {
            ColumnValue::Diffs(bytes) => Some(JsonDiffs::new(bytes)),
            _ => None,
        }
    }
}

impl Refusal {
    fn text(self) -> &'static str {
        match self {
            Refusal::Depth => "more than 100 arrays and objects are within one another",
            Refusal::Short => "the bytes end before the value does",
            Refusal::Size => "the size of an array or an object is above the number of bytes that are left",
            Refusal::Entries => "the entries of an array or an object don't fit into its size",
            Refusal::Work => "more bytes are to be read than the document has",
            Refusal::Key => "a key isn't between the entries and the end of its object",
            Refusal::Offset => "a value doesn't begin between the entries and the end of its array or object",
            Refusal::Literal => "a literal isn't null, true or false",
            Refusal::Length => "a length is too great, or the bytes end within it",
            Refusal::Opaque => "the bytes of an opaque value aren't a value of its column type",
            Refusal::UnknownType => "a type isn't known",
        }
    }
}

impl fmt::Display for JsonError {
    fn fmt(&self, f: &mut fmt::Formatter<'_>) -> fmt::Result {
        write!(f, "{}, at byte {} of the document", self.refusal.text(), self.place)
    }
}

impl fmt::Display for JsonDiffError {
    fn fmt(&self, f: &mut fmt::Formatter<'_>) -> fmt::Result {
        match self {
            JsonDiffError::Operation => f.write_str("the operation of a diff isn't known"),
            JsonDiffError::Length => f.write_str("no length begins with this byte of a list of diffs"),
            JsonDiffError::Truncated => f.write_str("a list of diffs ends within a length, a path or a document"),
            JsonDiffError::Document(error) => error.fmt(f),
        }
    }
}

impl fmt::Display for JsonWriteError {
    fn fmt(&self, f: &mut fmt::Formatter<'_>) -> fmt::Result {
        f.write_str(match self {
            JsonWriteError::Memory => "memory was refused",
            JsonWriteError::KeyTooLong => "a key has more than 65,535 bytes",
            JsonWriteError::KeyOrder => "a key isn't behind the last one of its object",
            JsonWriteError::TooDeep => "more than 100 arrays and objects would be within one another",
            JsonWriteError::TooLarge => "a string, an opaque value, an array or an object would have 2^32 bytes or more",
        })
    }
}

impl fmt::Display for JsonPathError {
    fn fmt(&self, f: &mut fmt::Formatter<'_>) -> fmt::Result {
        f.write_str(match self {
            JsonPathError::Memory => "memory was refused",
            JsonPathError::Root => "a path doesn't begin with `$`",
            JsonPathError::Leg => "a leg of a path begins neither with `.` nor with `[`",
            JsonPathError::Name => "a name in a path needs quotes",
            JsonPathError::Quote => "a path ends within a name in quotes",
            JsonPathError::Escape => "an escape in a path isn't known",
            JsonPathError::Place => "a place in a path isn't a number below 2^32, `last`, or `last-` and such a number",
        })
    }
}

impl fmt::Display for JsonChangeError {
    fn fmt(&self, f: &mut fmt::Formatter<'_>) -> fmt::Result {
        match self {
            JsonChangeError::Document => f.write_str("the document itself is inserted or removed"),
            JsonChangeError::NoObject => f.write_str("a member is named of a value that is no object"),
            JsonChangeError::NoArray => f.write_str("an element is named of a value that is no array"),
            JsonChangeError::NoMember => f.write_str("an object has no member of this name"),
            JsonChangeError::NoElement => f.write_str("an array has no element at this place"),
            JsonChangeError::MemberExists => f.write_str("the member that is inserted is there already"),
            JsonChangeError::Write(error) => error.fmt(f),
        }
    }
}

impl fmt::Display for JsonApplyError {
    fn fmt(&self, f: &mut fmt::Formatter<'_>) -> fmt::Result {
        match self {
            JsonApplyError::Diff(error) => error.fmt(f),
            JsonApplyError::Path(error) => error.fmt(f),
            JsonApplyError::Change(error) => error.fmt(f),
        }
    }
}

impl Error for JsonError {}
impl Error for JsonDiffError {}
impl Error for JsonWriteError {}
impl Error for JsonPathError {}
impl Error for JsonChangeError {}
impl Error for JsonApplyError {}
