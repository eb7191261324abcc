//! What the scripts of `tests` ask and read, a mode for each word:
//!
//! - `probe questions` answers the questions on standard input, a line for each; the head of `questions.rs` lists them.
//! - `probe undo` prints the rows and the event that undo those of each row event of the binary log on standard input, a line of JSON
//!   for each event that can be read. The primary key of each table are its first columns, as many as words follow, at most two.
//! - The other modes are those of `streams.rs`, which the proved program has, too.
//!
//! The exit status is 1 where input, output or memory failed, and where the mode is unknown; `streams.rs` says which modes have others.

mod questions;
mod streams;
mod undone;

use binlog::Error;
use binlog_tools::binlog_visits::exit_status;
use binlog_tools::host::Host;
use std::io::{self, BufWriter, Write};
use std::process::ExitCode;
use streams::compressed;

/// The size of the input's buffer, in bytes.
const INPUT_BUFFER_SIZE: usize = 512;

/// The exit status where input, output or memory failed.
const FAILED: u8 = 1;

fn status(is_fine: bool) -> u8 {
    if is_fine { 0 } else { FAILED }
}

// The exit status of a listing with this answer.
fn listing_status<W: Write>(answer: Result<bool, Error>, output: &mut W) -> u8 {
    match output.flush() {
        Ok(()) => exit_status(&answer),
        Err(error) => exit_status(&Err(Error::Writer(error.into()))),
    }
}

fn run(words: &[String], output: &mut impl Write) -> u8 {
    let Some((mode, rest)) = words.split_first() else {
        return FAILED;
    };
    match mode.as_str() {
        "questions" => status(questions::run(output).is_ok()),
        "undo" => status(undone::run(rest.len(), output).is_ok()),
        mode => match streams::mode_of(mode, !rest.is_empty()) {
            Some(mode) => streams::run(mode, io::stdin().lock(), output),
            None => FAILED,
        },
    }
}

fn main() -> ExitCode {
    let words: Vec<String> = std::env::args().skip(1).collect();
    if let Some(format) = words.first().and_then(|name| compressed::format_of(name)) {
        return ExitCode::from(compressed::run(&Host, format));
    }
    let mut output = BufWriter::new(io::stdout().lock());
    let status = run(&words, &mut output);
    ExitCode::from(if output.flush().is_ok() { status } else { FAILED })
}
