//! The texts of values: those of the lines of JSON, which the converted `binlog_json_values` writes. By hand, since the proved
//! sources have no `Display` of what takes memory.
use crate::binlog_optional_metadata::ColumnFacts;
use crate::binlog_json_values::ValueWriter;
use crate::binlog_values::{Date, DateTime, DateTime2, Decimal, Double, Float, Time, Time2};
use crate::binlog_values::{Timestamp2, Value, Year};
use crate::json_line::Line;
use std::fmt;
use std::str;

const UNKNOWN: ColumnFacts<'static> = ColumnFacts {
    name: None,
    is_unsigned: false,
    character_set: None,
    padded_length: 0,
    members: None,
};

/// Nothing is known of the column.
impl Default for ColumnFacts<'_> {
    fn default() -> Self {
        UNKNOWN
    }
}

impl Value<'_> {
    /// Shows the value as JSON, as `binlog json` prints it in a column of which these facts are known: a number, a string with its
    /// quotation marks and escapes, an object or `null`. The formatting fails if memory runs out.
    ///
    /// # Example
    ///
    /// ```
    /// use binlog::raw::ParseBuf;
    /// use binlog::values::{Column, ColumnFacts, Value};
    ///
    /// let column = Column::read(1, &mut ParseBuf(b""))?;
    /// let tiny = Value::read(&column, &mut ParseBuf(b"\xff"))?;
    /// assert_eq!(tiny.to_string(), "-1");
    /// let facts = ColumnFacts { is_unsigned: true, ..ColumnFacts::default() };
    /// assert_eq!(tiny.display(&facts).to_string(), "255");
    /// # Ok::<(), Box<dyn std::error::Error>>(())
    /// ```
    pub fn display<'v>(&'v self, facts: &'v ColumnFacts<'_>) -> impl fmt::Display + 'v {
        Shown { value: self, facts }
    }
}

/// As [`Value::display`] shows it where nothing is known of the column: integers are signed, strings are texts, and the members of
/// an ENUM or a SET are numbers.
impl fmt::Display for Value<'_> {
    fn fmt(&self, f: &mut fmt::Formatter<'_>) -> fmt::Result {
        self.display(&UNKNOWN).fmt(f)
    }
}

/// A value, and what is known of its column.
struct Shown<'v> {
    value: &'v Value<'v>,
    facts: &'v ColumnFacts<'v>,
}

impl fmt::Display for Shown<'_> {
    fn fmt(&self, f: &mut fmt::Formatter<'_>) -> fmt::Result {
        with_json(self.value, self.facts, |json| f.pad(json))
    }
}

/// Shows the JSON of a value.
fn with_json(
    value: &Value<'_>,
    facts: &ColumnFacts<'_>,
    show: impl FnOnce(&str) -> fmt::Result,
) -> fmt::Result {
    let mut line = Line::new();
    ValueWriter::new().write(&mut line, facts, value).map_err(|_| fmt::Error)?;
    let bytes = line.end().map_err(|_| fmt::Error)?;
    let json = str::from_utf8(bytes).map_err(|_| fmt::Error)?;
    show(json.trim_end_matches('\n'))
}

/// A text, padded as texts are.
fn pad_text(f: &mut fmt::Formatter<'_>, text: &str) -> fmt::Result {
    f.pad(text)
}

/// The text of a number, padded as numbers are.
fn pad_number(f: &mut fmt::Formatter<'_>, text: &str) -> fmt::Result {
    match text.strip_prefix('-') {
        Some(digits) => f.pad_integral(false, "", digits),
        None => f.pad_integral(true, "", text),
    }
}

/// `Display` of the types of some variants of `Value`, each with an example of its text: the JSON of the value, without quotation
/// marks.
macro_rules! displayed {
    ($pad:ident: $($name:ident $(<$of:lifetime>)?, $text:literal;)*) => {$(
        #[doc = concat!("As ", $text, ".")]
        impl fmt::Display for $name$(<$of>)? {
            fn fmt(&self, f: &mut fmt::Formatter<'_>) -> fmt::Result {
                with_json(&Value::$name(*self), &UNKNOWN, |json| $pad(f, json.trim_matches('"')))
            }
        }
    )*};
}

displayed! { pad_text:
    Date, "`2026-11-25`";
    Time, "`-838:59:59`";
    Time2, "`-838:59:59.000000`, with the digits of the column's fraction";
    DateTime, "`2026-11-25 06:30:00`";
    DateTime2, "`2026-11-25 06:30:00.000250`, with the digits of the column's fraction";
    Timestamp2, "`2026-11-25 06:30:00.000250` in UTC, with the digits of the column's fraction; all zero is `0000-00-00 00:00:00`";
}

displayed! { pad_number:
    Decimal<'_>, "`-12.50`, with all digits after the point";
    Float, "`0.1`, the shortest number that reads back as the same; `null` if it isn't finite";
    Double, "`0.1`, the shortest number that reads back as the same; `null` if it isn't finite";
    Year, "`2026`";
}
