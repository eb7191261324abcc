//! Answers to questions of transactions:
//!
//! - `statement BYTES` is answered with the kind of the statement with this text, as Rust's `{:?}` writes it.
//! - `role NUMBER` is answered with the role of an event of this type, as Rust's `{:?}` writes it, in a log of MySQL's, in one of
//!   MariaDB's, and the same two for an event that may be ignored, with a `;` between.
//! - `gtid NUMBER` is answered with the mark of a GTID of MariaDB's with these flags.
//! - `marks WORD WORD ..` is answered with what is said of events with these marks, one after the other, with a space between: the
//!   place, behind it a `!` where the transaction in front is cut off, and after a `:` the refusal, if there is one. The last word is
//!   `within` or `outside`. The words of marks are those of `mark_of`.
//! - `written PLACE CHECKSUMS TIMESTAMP SERVER FLAGS WORD WORD ..` is answered with the bytes of events that are written from this place
//!   of a log on, with checksums (1) or without (0), of events whose header has these numbers: `begin`, `xid:NUMBER`, and
//!   `TYPE:BYTES` for any other.
mod marks;
mod written;

use super::bytes::{bytes_of, digits_of};
use binlog::undo::{GtidMark, Role, Transactions, statement_kind};

// The roles of a type.
fn roles(number: u8) -> String {
    let roles = [(false, false), (true, false), (false, true), (true, true)]
        .map(|(is_of_maria, is_ignorable)| format!("{:?}", Role::of_type(number, is_of_maria, is_ignorable)));
    roles.join(";")
}

// What is said of events with these marks.
fn turns(words: &str) -> String {
    let mut transactions = Transactions::new();
    let mut shown: Vec<String> = words
        .split(' ')
        .map(|word| match marks::mark_of(word) {
            Some(mark) => marks::shown(&transactions.next(mark)),
            None => "unknown".to_owned(),
        })
        .collect();
    shown.push(if transactions.is_within() { "within" } else { "outside" }.to_owned());
    shown.join(" ")
}

/// The answer to a question of transactions.
pub(crate) fn answer(kind: &str, asked: &str) -> Option<String> {
    match kind {
        "statement" => Some(format!("{:?}", statement_kind(&bytes_of(asked)?))),
        "role" => Some(roles(asked.parse().ok()?)),
        "gtid" => Some(format!("{:?}", GtidMark::of_maria_flags(asked.parse().ok()?))),
        "marks" => Some(turns(asked)),
        "written" => Some(digits_of(&written::bytes_of(asked)?)),
        _ => None,
    }
}
