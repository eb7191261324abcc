//! Marks and turns as words.
use binlog::undo::{GtidMark, Mark, RowsMark, StatementKind, Turn, Unsupported};

// The mark of a GTID.
fn gtid(is_group: bool, is_xa: bool) -> Mark {
    Mark::Gtid(GtidMark { is_group, is_xa })
}

// The mark of rows.
fn rows(ends_statement: bool, is_undone: bool) -> Mark {
    Mark::Rows(RowsMark {
        ends_statement,
        is_undone,
    })
}

/// The mark of a word.
pub(crate) fn mark_of(word: &str) -> Option<Mark> {
    Some(match word {
        "nothing" => Mark::Nothing,
        "border" => Mark::Border,
        "encryption" => Mark::Encryption,
        "gtid" => gtid(false, false),
        "group" => gtid(true, false),
        "xa-gtid" => gtid(false, true),
        "xa-group" => gtid(true, true),
        "xid" => Mark::Xid,
        "map" => Mark::TableMap,
        "rows" => rows(false, true),
        "last-rows" => rows(true, true),
        "other-rows" => rows(false, false),
        "last-other-rows" => rows(true, false),
        _ => return statement_or_unsupported(word),
    })
}

// The mark of a word for a statement, or for an event that can't be undone.
fn statement_or_unsupported(word: &str) -> Option<Mark> {
    let kind = match word {
        "BEGIN" => StatementKind::Begin,
        "COMMIT" => StatementKind::Commit,
        "ROLLBACK" => StatementKind::Rollback,
        "ROLLBACK-TO" => StatementKind::RollbackToSavepoint,
        "SAVEPOINT" => StatementKind::Harmless,
        "XA-START" => StatementKind::XaStart,
        "XA-COMMIT" => StatementKind::XaEnd,
        "XA-END" => StatementKind::Xa,
        "STATEMENT" => StatementKind::Other,
        _ => return unsupported(word),
    };
    Some(Mark::Statement(kind))
}

// The mark of a word for an event that can't be undone.
fn unsupported(word: &str) -> Option<Mark> {
    let event = match word {
        "xa-prepare" => Unsupported::XaPrepare,
        "payload" => Unsupported::Payload,
        "load" => Unsupported::LoadData,
        "load-part" => Unsupported::LoadDataPart,
        "incident" => Unsupported::Incident,
        "old-rows" => Unsupported::OldRows,
        "unknown-event" => Unsupported::UnknownEvent,
        _ => return None,
    };
    Some(Mark::Unsupported(event))
}

/// What is said of an event.
pub(crate) fn shown(turn: &Turn) -> String {
    let cut = if turn.cuts { "!" } else { "" };
    match turn.refusal {
        Some(refusal) => format!("{:?}{cut}:{refusal:?}", turn.place),
        None => format!("{:?}{cut}", turn.place),
    }
}
