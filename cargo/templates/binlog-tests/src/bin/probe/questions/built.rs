//! Answers to questions of documents of binary JSON that are built.
use super::bytes::{bytes_of, digits_of};
use binlog::AllocError;
use binlog::jsonb::{ArrayBuilder, JsonWriteError, ObjectBuilder, OpaqueValue, OwnedDocument};

/// An array or an object that isn't at its end yet; an object with the key of the next member.
enum Open {
    Array(ArrayBuilder),
    Object(ObjectBuilder, Vec<u8>),
}

/// Why there is no document.
enum Fault {
    /// A word isn't known, or stands in a wrong place.
    Unknown,
    /// The document can't be written.
    Refused(JsonWriteError),
}

impl From<JsonWriteError> for Fault {
    fn from(error: JsonWriteError) -> Fault {
        Fault::Refused(error)
    }
}

impl From<AllocError> for Fault {
    fn from(_: AllocError) -> Fault {
        Fault::Refused(JsonWriteError::Memory)
    }
}

/// A document that is built of words.
#[derive(Default)]
struct Building {
    open: Vec<Open>,
    done: Option<OwnedDocument>,
}

impl Building {
    // Takes a value as the whole, an element, or the value of a member.
    fn take(&mut self, value: OwnedDocument) -> Result<(), Fault> {
        match self.open.last_mut() {
            Some(Open::Array(builder)) => builder.push(value)?,
            Some(Open::Object(builder, key)) => builder.push(key, value)?,
            None => self.done = Some(value),
        }
        Ok(())
    }

    // Ends an array or an object.
    fn end(&mut self) -> Result<(), Fault> {
        let value = match self.open.pop() {
            Some(Open::Array(builder)) => builder.finish()?,
            Some(Open::Object(builder, _)) => builder.finish()?,
            None => return Err(Fault::Unknown),
        };
        self.take(value)
    }

    // Keeps the key of the next member.
    fn key(&mut self, digits: &str) -> Result<(), Fault> {
        match self.open.last_mut() {
            Some(Open::Object(_, key)) => {
                *key = bytes_of(digits).ok_or(Fault::Unknown)?;
                Ok(())
            }
            _ => Err(Fault::Unknown),
        }
    }

    /// Takes a word.
    fn word(&mut self, word: &str) -> Result<(), Fault> {
        match word {
            "[" => self.open.push(Open::Array(ArrayBuilder::new())),
            "{" => self.open.push(Open::Object(ObjectBuilder::new(), Vec::new())),
            "]" | "}" => self.end()?,
            _ => match word.split_once(':') {
                Some(("k", digits)) => self.key(digits)?,
                _ => self.take(scalar(word)?)?,
            },
        }
        Ok(())
    }
}

fn scalar(word: &str) -> Result<OwnedDocument, Fault> {
    Ok(match word.split_once(':') {
        None if word == "null" => OwnedDocument::null()?,
        None if word == "true" => OwnedDocument::boolean(true)?,
        None if word == "false" => OwnedDocument::boolean(false)?,
        Some(("i", number)) => OwnedDocument::signed(number.parse().map_err(|_| Fault::Unknown)?)?,
        Some(("u", number)) => OwnedDocument::unsigned(number.parse().map_err(|_| Fault::Unknown)?)?,
        Some(("d", bits)) => OwnedDocument::from_bits(bits.parse().map_err(|_| Fault::Unknown)?)?,
        Some(("s", digits)) => OwnedDocument::string(&bytes_of(digits).ok_or(Fault::Unknown)?)?,
        Some(("o", rest)) => opaque(rest)?,
        _ => return Err(Fault::Unknown),
    })
}

// An opaque value, by its column type and the digits of its bytes.
fn opaque(word: &str) -> Result<OwnedDocument, Fault> {
    let (column, digits) = word.split_once(':').ok_or(Fault::Unknown)?;
    let bytes = bytes_of(digits).ok_or(Fault::Unknown)?;
    let column = column.parse().map_err(|_| Fault::Unknown)?;
    let value = OpaqueValue::new(column, &bytes).ok_or(Fault::Unknown)?;
    Ok(OwnedDocument::opaque(&value)?)
}

/// The answer for these words.
pub(crate) fn answer(words: &str) -> Option<String> {
    let mut building = Building::default();
    for word in words.split(',') {
        match building.word(word) {
            Ok(()) => {}
            Err(Fault::Unknown) => return None,
            Err(Fault::Refused(error)) => return Some(format!("refused {error:?}")),
        }
    }
    Some(digits_of(building.done?.as_bytes()))
}
