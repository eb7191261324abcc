//! Answers the questions on standard input, a line for each, on standard output:
//!
//! - `text SET BYTES` is answered with the code points of the text, and with its UTF-8, in hexadecimal digits: `20ac e282ac`, or with
//!   `none` where the bytes are no text in the set. No characters are `-`.
//! - `collation NUMBER` and `mariadb NUMBER` are answered with the name of the collation's character set, or `none`.
//! - `name NAME` is answered with the name of the set of this name, or `none`, and with `decoded` if it is decoded.
//! - `document BYTES` is answered with the text of the document of binary JSON, with `no text` where it has none, or with `refused`,
//!   why, and the place where: `refused Short 1`.
//! - `rewritten BYTES` is answered with the bytes of the document of the same value as a serializer writes them, or with
//!   `refused` and why: `refused Short 1`, `refused TooLarge`.
//! - `applied BYTES BYTES` is answered with the bytes of the document after a list of diffs, of a document and the list; or with
//!   `refused` and why, as Rust's `{:?}` writes it: `refused Change(NoMember)`.
//! - `built WORD,WORD..` is answered with the bytes of the document that is built of the words, or with `refused` and why: `refused
//!   KeyOrder`. The words are `null`, `true`, `false`, a signed integer as `i:-5`, an unsigned one as `u:5`, the bits of a
//!   floating-point number as `d:0`, a string as `s:BYTES`, an opaque value with its column type as `o:246:BYTES`, an array as `[`, its
//!   elements and `]`, and an object as `{`, a key as `k:BYTES` in front of each value, and `}`.
//! - `file BYTES` is answered with the columns of the file, or with `refused`, why, and the line and the column where:
//!   `refused Position 2 5`. A column is its six fields with commas between, which are hexadecimal digits but the position; columns
//!   have a `;` between, and no columns are `none`.
//! - `type BYTES` is answered with the type of a column that the bytes spell, as Rust's `{:?}` writes it, or with `none`.
//! - `inflate LIMIT BYTES` is answered with the text of the zlib stream, which is at most LIMIT bytes long, or with `refused` and why:
//!   `refused Checksum`.
//! - `payload LIMIT BYTES` is answered with what the data of a TRANSACTION_PAYLOAD event say, as Rust's `{:?}` writes it: compression
//!   type, size of the content, and size of the payload; the data that are written for it; the content, which is at most LIMIT bytes
//!   long; and the type, the size and the size of the data of each event in it, and the error behind them, if there is one: `ZSTD
//!   Some(27) 36 020100.. e803.. 16:27:8`. In place of the content, and of all, stand `refused` and why: `refused FieldTwice`.
//! - `inner BYTES BYTES` is answered with the events of a content as the reader of a stream reads them, behind the events of a stream:
//!   the type, the size of the data, and whether a table map is in force for the id with which the data begin, or the error; and with
//!   the number of bytes that are left: `16:8:false 0`.
//! - `statement`, `role`, `gtid`, `marks` and `written` are questions of transactions; the head of `transactions.rs` lists them.
//!
//! Bytes are hexadecimal digits, and no bytes are `-`. Any other line is answered with `unknown`.

mod built;
mod bytes;
mod characters;
mod columns;
mod documents;
mod payloads;
mod transactions;
mod zlib;

use std::io::{self, Write};

// The answer to a question; None if it is none.
fn answer(question: &str) -> Option<String> {
    let (kind, asked) = question.split_once(' ')?;
    match kind {
        "document" | "rewritten" | "applied" => documents::answer(kind, asked),
        "built" => built::answer(asked),
        "file" | "type" => columns::answer(kind, asked),
        "inflate" => zlib::answer(asked),
        "payload" => payloads::payload(asked),
        "inner" => payloads::inner(asked),
        "text" | "name" | "collation" | "mariadb" => characters::answer(kind, asked),
        _ => transactions::answer(kind, asked),
    }
}

/// Answers all questions.
///
/// # Errors
///
/// Those of standard input and of the output. The answers before are written.
pub(crate) fn run(output: &mut impl Write) -> io::Result<()> {
    for question in io::stdin().lines() {
        writeln!(output, "{}", answer(&question?).as_deref().unwrap_or("unknown"))?;
    }
    Ok(())
}
