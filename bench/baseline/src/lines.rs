//! The lines of the listing.

use crate::footer::CHECKSUM_LENGTH;
use crate::frames::{event_size, event_type, flags, log_pos, HEADER_LENGTH};
use crate::output::Output;
use crate::words::{word, PostHeaders};
use std::io::{self, Write};

pub const UNDERSIZED: &[u8] = b" error E3";
pub const TOO_SHORT: &[u8] = b" error E4";
pub const MISMATCH: &[u8] = b" error E17";

/// `index type size log_pos flags data_len checksum word`
#[inline]
pub fn write_frame_line(
    output: &mut Output<impl Write>,
    index: u64,
    frame: &[u8],
    suffix: usize,
    has_checksum: bool,
    post_headers: &PostHeaders,
) -> io::Result<()> {
    let data = &frame[HEADER_LENGTH..frame.len() - suffix];
    let word = word(event_type(frame), data, post_headers);
    output.line(|line| {
        line.decimal(index);
        line.byte(b' ');
        line.decimal(event_type(frame).into());
        line.byte(b' ');
        line.decimal(event_size(frame).into());
        line.byte(b' ');
        line.decimal(log_pos(frame).into());
        line.byte(b' ');
        line.hexadecimal(flags(frame).to_be_bytes());
        line.byte(b' ');
        line.decimal(data.len() as u64);
        line.byte(b' ');
        match frame.last_chunk::<CHECKSUM_LENGTH>() {
            Some(checksum) if has_checksum => line.hexadecimal(*checksum),
            _ => line.byte(b'-'),
        }
        line.byte(b' ');
        line.text(word);
    })
}

#[cold]
pub fn write_error_line(output: &mut Output<impl Write>, index: u64, text: &[u8]) -> io::Result<()> {
    output.line(|line| {
        line.decimal(index);
        line.text(text);
    })
}
