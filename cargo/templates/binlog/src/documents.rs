//! The documents of JSON columns as the crate `serde_json` has them, and the other way. By hand, with the feature `serde_json`.
use crate::binary_json::{Document, Value};
use crate::binary_json_lines::write_value_if_text;
use crate::binary_json_writing::{ArrayBuilder, JsonWriteError, ObjectBuilder, OwnedDocument};
use crate::json_line::Line;
use crate::memory::AllocError;
use serde_json::{Map, Number};
use thiserror::Error;

/// How many arrays and objects of a document may be within one another.
const MOST_NESTED: usize = 100;

/// Why a document, or a value of one, isn't a value of `serde_json`.
#[derive(Debug, Error)]
pub enum DocumentError {
    /// A string or a key isn't UTF-8, or a floating-point number isn't finite. Servers write no such document.
    #[error("a string of the document isn't UTF-8, or a number isn't finite")]
    NoText,
    /// The text isn't read.
    #[error(transparent)]
    Text(#[from] serde_json::Error),
    /// An allocation failed.
    #[error(transparent)]
    Memory(#[from] AllocError),
}

/// What `serde_json` reads of the value's text, which `binlog json` prints: an integer keeps its digits, a decimal number becomes
/// a float, a date or a time a string, and of members with equal keys the last one stays.
///
/// # Example
///
/// ```
/// use binlog::jsonb::{Document, Value};
/// use serde_json::json;
///
/// let document = Document::read(b"\0\x01\0\x13\0\x0b\0\x01\0\x02\x0c\0a\x01\0\x07\0\x04\x01\0")?;
/// let Value::Object(members) = document.value() else {
///     panic!("an object");
/// };
/// let value = members.get("a").expect("a member");
/// assert_eq!(serde_json::Value::try_from(&value)?, json!([true]));
/// # Ok::<(), Box<dyn std::error::Error>>(())
/// ```
impl TryFrom<&Value<'_>> for serde_json::Value {
    type Error = DocumentError;

    fn try_from(value: &Value<'_>) -> Result<Self, DocumentError> {
        let mut line = Line::new();
        if !write_value_if_text(&mut line, &mut String::new(), value)? {
            return Err(DocumentError::NoText);
        }
        Ok(serde_json::from_slice(line.end()?)?)
    }
}

/// The same of the value of a document.
///
/// # Example
///
/// ```
/// use binlog::jsonb::Document;
/// use serde_json::json;
///
/// let document = Document::read(b"\0\x01\0\x13\0\x0b\0\x01\0\x02\x0c\0a\x01\0\x07\0\x04\x01\0")?;
/// assert_eq!(serde_json::Value::try_from(&document)?, json!({"a": [true]}));
/// # Ok::<(), Box<dyn std::error::Error>>(())
/// ```
impl TryFrom<&Document<'_>> for serde_json::Value {
    type Error = DocumentError;

    fn try_from(document: &Document<'_>) -> Result<Self, DocumentError> {
        serde_json::Value::try_from(&document.value())
    }
}

/// The document that MySQL makes of the value's text: integers are signed below 2^32, and unsigned from there on; keys are in MySQL's
/// order.
///
/// # Errors
///
/// [`JsonWriteError::KeyTooLong`], [`JsonWriteError::TooDeep`] or [`JsonWriteError::TooLarge`], which is also that of a number beyond those
/// of eight bytes; [`JsonWriteError::Memory`] if memory is refused.
///
/// # Example
///
/// ```
/// use binlog::jsonb::OwnedDocument;
/// use serde_json::json;
///
/// let document = OwnedDocument::try_from(&json!({"a": [true]}))?;
/// assert_eq!(document.as_bytes(), b"\0\x01\0\x13\0\x0b\0\x01\0\x02\x0c\0a\x01\0\x07\0\x04\x01\0");
/// # Ok::<(), Box<dyn std::error::Error>>(())
/// ```
impl TryFrom<&serde_json::Value> for OwnedDocument {
    type Error = JsonWriteError;

    fn try_from(value: &serde_json::Value) -> Result<Self, JsonWriteError> {
        document_of(value, MOST_NESTED)
    }
}

fn document_of(value: &serde_json::Value, depth: usize) -> Result<OwnedDocument, JsonWriteError> {
    match value {
        serde_json::Value::Null => Ok(OwnedDocument::null()?),
        serde_json::Value::Bool(value) => Ok(OwnedDocument::boolean(*value)?),
        serde_json::Value::Number(number) => number_of(number),
        serde_json::Value::String(text) => OwnedDocument::string(text.as_bytes()),
        serde_json::Value::Array(values) => array_of(values, within(depth)?),
        serde_json::Value::Object(members) => object_of(members, within(depth)?),
    }
}

fn within(depth: usize) -> Result<usize, JsonWriteError> {
    depth.checked_sub(1).ok_or(JsonWriteError::TooDeep)
}

fn number_of(number: &Number) -> Result<OwnedDocument, JsonWriteError> {
    if let Some(number) = number.as_u64().filter(|number| *number >= 1 << 32) {
        return Ok(OwnedDocument::unsigned(number)?);
    }
    if let Some(number) = number.as_i64() {
        return Ok(OwnedDocument::signed(number)?);
    }
    match number.as_f64().filter(|number| number.is_finite()) {
        Some(number) => Ok(OwnedDocument::from_bits(number.to_bits())?),
        None => Err(JsonWriteError::TooLarge),
    }
}

fn array_of(values: &[serde_json::Value], depth: usize) -> Result<OwnedDocument, JsonWriteError> {
    let mut builder = ArrayBuilder::new();
    for value in values {
        builder.push(document_of(value, depth)?)?;
    }
    builder.finish()
}

fn object_of(members: &Map<String, serde_json::Value>, depth: usize) -> Result<OwnedDocument, JsonWriteError> {
    let mut members = Vec::from_iter(members);
    members.sort_unstable_by_key(|(key, _)| (key.len(), *key));
    let mut builder = ObjectBuilder::new();
    for (key, value) in members {
        builder.push(key.as_bytes(), document_of(value, depth)?)?;
    }
    builder.finish()
}
