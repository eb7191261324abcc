//! Answers to questions of documents of binary JSON.
use super::bytes::{bytes_of, digits_of};
use binlog::json_lines::{Line, write_document_if_text};
use binlog::jsonb::{Document, JsonError, rewritten};
use binlog::jsondiff::{JsonDiffs, apply};

// The text of a document.
fn text(document: &Document<'_>) -> Option<String> {
    let (mut line, mut memory) = (Line::new(), String::new());
    if !write_document_if_text(&mut line, &mut memory, document).ok()? {
        return Some("no text".to_owned());
    }
    let text = String::from_utf8(line.end().ok()?.to_vec()).ok()?;
    Some(text.trim_end_matches('\n').to_owned())
}

fn refused(error: JsonError) -> String {
    format!("refused {:?} {}", error.refusal, error.place)
}

// The bytes of the document of the same value.
fn written(document: &Document<'_>) -> String {
    match rewritten(&document.value()) {
        Ok(document) => digits_of(document.as_bytes()),
        Err(error) => format!("refused {error:?}"),
    }
}

// The bytes of the document after the diffs of a list.
fn applied(document: &Document<'_>, diffs: &[u8]) -> String {
    match apply(document, JsonDiffs::new(diffs)) {
        Ok(document) => digits_of(document.as_bytes()),
        Err(error) => format!("refused {error:?}"),
    }
}

/// The answer to a question of a document, or of a document and a list of diffs.
pub(crate) fn answer(kind: &str, asked: &str) -> Option<String> {
    let (document, diffs) = match asked.split_once(' ') {
        Some((document, diffs)) if kind == "applied" => (document, bytes_of(diffs)?),
        None if kind != "applied" => (asked, Vec::new()),
        _ => return None,
    };
    let bytes = bytes_of(document)?;
    match (Document::read(&bytes), kind) {
        (Err(error), _) => Some(refused(error)),
        (Ok(document), "document") => text(&document),
        (Ok(document), "rewritten") => Some(written(&document)),
        (Ok(document), _) => Some(applied(&document, &diffs)),
    }
}
