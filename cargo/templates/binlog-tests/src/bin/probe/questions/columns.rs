//! Answers to questions of files of columns.
use super::bytes::{bytes_of, shown};
use binlog::AllocError;
use binlog::columns::{ColumnFileError, ColumnLine, DeclaredType, Place, parse};

fn column(line: &ColumnLine<'_>) -> Result<String, AllocError> {
    Ok([
        shown(&line.schema.text()?),
        shown(&line.table.text()?),
        line.position.to_string(),
        shown(&line.name.text()?),
        shown(&line.column_type.text()?),
        shown(&line.character_set.text()?),
    ]
    .join(","))
}

// The columns of a file, or why it is refused.
fn file(text: &[u8]) -> Result<String, AllocError> {
    match parse(text) {
        Ok(lines) if lines.is_empty() => Ok("none".to_owned()),
        Ok(lines) => Ok(lines.iter().map(column).collect::<Result<Vec<_>, _>>()?.join(";")),
        Err(ColumnFileError::Memory) => Err(AllocError),
        Err(ColumnFileError::Invalid(fault, index)) => {
            let place = Place::of_byte(text, index);
            Ok(format!("refused {fault:?} {} {}", place.line, place.column))
        }
    }
}

/// The answer to a question of a file or of a type.
pub(crate) fn answer(kind: &str, digits: &str) -> Option<String> {
    let text = bytes_of(digits)?;
    if kind == "file" {
        return file(&text).ok();
    }
    let found = DeclaredType::parse(&text).ok()?;
    Some(found.map_or("none".to_owned(), |found| format!("{found:?}")))
}
