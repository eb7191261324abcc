//! The array of an event's rows.

use crate::line::{part, Line};
use crate::rows::RowEvent;
use crate::tables::{Column, Table};
use crate::values::{write_null, write_value};

/// What a value takes besides six bytes for each stored byte.
const VALUE_ROOM: usize = 128;

/// None if an image hasn't all columns, if they are more than 64, or if the rows can't be read.
#[inline(always)]
pub fn write_rows(line: &mut Line, table: &Table, event: &RowEvent) -> Option<()> {
    let columns = &*table.columns;
    let is_whole = |bits: Option<&[u8]>| {
        bits.is_none_or(|bits| bits.iter().map(|byte| byte.count_ones() as usize).sum::<usize>() == columns.len())
    };
    if event.columns != columns.len() as u64 || columns.len() > 64 || !is_whole(event.before) || !is_whole(event.after)
    {
        return None;
    }
    let (has_before, has_after) = (event.before.is_some(), event.after.is_some());
    let begin = line.length();
    let mut rest = event.rows;
    while !rest.is_empty() {
        line.reserve(2 * columns.len() * VALUE_ROOM + 6 * rest.len());
        let (out, start) = line.room();
        let end = write_row(columns, has_before, has_after, &mut rest, out, start)?;
        line.cut(end);
    }
    line.close_array(begin);
    Some(())
}

#[inline(always)]
fn write_row(
    columns: &[Column],
    has_before: bool,
    has_after: bool,
    rest: &mut &[u8],
    out: &mut [u8],
    mut at: usize,
) -> Option<usize> {
    *part(out, at) = *b",{\"before\":";
    at += 2;
    if has_before {
        at = write_image(columns, rest, out, at + 9)?;
        *part(out, at) = *b"},";
        at += 2;
    }
    if has_after {
        *part(out, at) = *b"\"after\":";
        at = write_image(columns, rest, out, at + 8)?;
        *part(out, at) = *b"},";
        at += 2;
    }
    // The last comma is where the row ends.
    out[at - 1] = b'}';
    Some(at)
}

/// An image without the brace at its end.
#[inline(never)]
fn write_image(columns: &[Column], rest: &mut &[u8], out: &mut [u8], begin: usize) -> Option<usize> {
    let (nulls, mut left) = rest.split_at_checked(columns.len().div_ceil(8))?;
    let mut bits = nulls.iter().rev().fold(0, |bits, byte| bits << 8 | u64::from(*byte));
    let mut at = begin;
    for column in columns {
        at = column.key.write(out, at);
        at = if bits & 1 == 1 { write_null(out, at) } else { write_value(&column.decoder, &mut left, out, at)? };
        bits >>= 1;
    }
    *rest = left;
    // The first comma is where the object begins.
    out[begin] = b'{';
    Some(at.max(begin + 1))
}
