//! Answers to questions of character sets.
use super::bytes::{NOTHING, bytes_of, digits_of};
use binlog::values::{CharacterSet, Characters};

const NONE: &str = "none";

// The code points, with commas between, and the UTF-8.
fn shown(characters: Characters<'_>) -> String {
    let utf8 = characters.to_string();
    if utf8.is_empty() {
        return format!("{NOTHING} {NOTHING}");
    }
    let points: Vec<String> = characters.map(|character| format!("{:x}", u32::from(character))).collect();
    format!("{} {}", points.join(","), digits_of(utf8.as_bytes()))
}

fn text(asked: &str) -> Option<String> {
    let (name, digits) = asked.split_once(' ')?;
    let set = CharacterSet::from_name(name)?;
    let bytes = bytes_of(digits)?;
    Some(set.decode(&bytes).map_or(NONE.to_owned(), shown))
}

fn name_of(set: Option<CharacterSet>) -> String {
    set.map_or(NONE, CharacterSet::name).to_owned()
}

fn name(asked: &str) -> String {
    match CharacterSet::from_name(asked) {
        Some(set) if set.is_decoded() => format!("{} decoded", set.name()),
        set => name_of(set),
    }
}

/// The answer to a question of a text or of a set.
pub(crate) fn answer(kind: &str, asked: &str) -> Option<String> {
    match kind {
        "text" => text(asked),
        "name" => Some(name(asked)),
        "collation" => Some(name_of(CharacterSet::from_collation(asked.parse().ok()?))),
        "mariadb" => Some(name_of(CharacterSet::from_mariadb_collation(asked.parse().ok()?))),
        _ => None,
    }
}
