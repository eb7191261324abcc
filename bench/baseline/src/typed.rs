//! The statements of a log and their status variables, its GTIDs, its table maps and its row events.

use crate::footer::Footer;
use crate::frames::{event_type, Frames, Next, HEADER_LENGTH};
use crate::gtids::Gtid;
use crate::rows::{Maps, RowEvent, TableMap};
use crate::words::PostHeaders;
use crate::Outcome;
use std::io::{self, Read, Write};

const QUERY: u8 = 2;
const ROTATE: u8 = 4;
const FORMAT_DESCRIPTION: u8 = 15;
const TABLE_MAP: u8 = 19;
const WRITE_ROWS: u8 = 30;
const UPDATE_ROWS: u8 = 31;
const DELETE_ROWS: u8 = 32;
const GTID: u8 = 33;
const GTID_TAGGED: u8 = 42;

const STATEMENT_HEAD_LENGTH: usize = 13;
const TOO_MANY_NAMES: u8 = 254;

#[derive(Default)]
struct Sums {
    statements: u64,
    text_bytes: u64,
    variables: u64,
    values: u64,
    gtids: u64,
    tag_bytes: u64,
    numbers: u64,
    maps: u64,
    map_bytes: u64,
    row_events: u64,
    row_bytes: u64,
    row_numbers: u64,
}

/// Sums over the statements, GTIDs, table maps and row events up to the first item that is an error.
pub fn sum(mut frames: Frames<impl Read>, output: &mut impl Write) -> io::Result<Outcome> {
    let mut in_force = Footer::NONE;
    let mut post_headers = PostHeaders::stated(&[]);
    let mut maps = Maps::default();
    let mut sums = Sums::default();
    loop {
        match frames.next()? {
            Next::Frame(frame) => {
                let (suffix, _) = in_force.take(frame).suffix(frame);
                if frame.len() < HEADER_LENGTH + suffix {
                    return Ok(Outcome::ErrorItem);
                }
                let frame = &frame[..frame.len() - suffix];
                if event_type(frame) == FORMAT_DESCRIPTION {
                    post_headers = PostHeaders::stated(frame);
                }
                let body = &frame[HEADER_LENGTH..];
                let counted = match event_type(frame) {
                    QUERY => sums.count(body, post_headers.statement),
                    ROTATE => clear_at(body, &mut maps),
                    TABLE_MAP => TableMap::read(body, post_headers.table_map).map(|map| {
                        maps.keep(&map);
                        sums.count_map(&map);
                    }),
                    WRITE_ROWS => RowEvent::read(body, post_headers.write_rows, false, true)
                        .map(|event| sums.count_rows(&event)),
                    UPDATE_ROWS => RowEvent::read(body, post_headers.update_rows, true, true)
                        .map(|event| sums.count_rows(&event)),
                    DELETE_ROWS => RowEvent::read(body, post_headers.delete_rows, true, false)
                        .map(|event| sums.count_rows(&event)),
                    GTID => Gtid::untagged(body).map(|gtid| sums.count_gtid(&gtid)),
                    GTID_TAGGED => Gtid::tagged(body).map(|gtid| sums.count_gtid(&gtid)),
                    _ => Some(()),
                };
                if counted.is_none() {
                    return Ok(Outcome::ErrorItem);
                }
            }
            Next::Undersized => return Ok(Outcome::ErrorItem),
            Next::End => break,
        }
    }
    let Sums {
        statements,
        text_bytes,
        variables,
        values,
        gtids,
        tag_bytes,
        numbers,
        maps,
        map_bytes,
        row_events,
        row_bytes,
        row_numbers,
    } = sums;
    writeln!(
        output,
        "{statements} {text_bytes} {variables} {values} {gtids} {tag_bytes} {numbers} \
         {maps} {map_bytes} {row_events} {row_bytes} {row_numbers}"
    )?;
    Ok(Outcome::Fine)
}

/// A rotate to another position than 0 lets go of the maps.
#[cold]
fn clear_at(rotate: &[u8], maps: &mut Maps) -> Option<()> {
    let (position, _) = rotate.split_first_chunk()?;
    if u64::from_le_bytes(*position) != 0 {
        maps.clear();
    }
    Some(())
}

/// How many bits there are, and whether the first is set.
#[inline]
fn bits(columns: u64, image: &[u8]) -> u64 {
    columns + u64::from(image.first().is_some_and(|byte| byte & 1 == 1))
}

impl Sums {
    /// None where the body ends too early.
    #[inline]
    fn count(&mut self, body: &[u8], head_length: usize) -> Option<()> {
        let (head, _) = body.split_first_chunk::<STATEMENT_HEAD_LENGTH>()?;
        let schema_length = usize::from(head[8]);
        let variables_length = usize::from(u16::from_le_bytes([head[11], head[12]]));
        let (variables, rest) = body
            .get(head_length..)?
            .split_at_checked(variables_length)?;
        let (schema, rest) = rest.split_at_checked(schema_length)?;
        let (_, query) = rest.split_first()?;
        self.statements += 1;
        self.text_bytes += (schema.len() + query.len()) as u64;
        self.count_variables(variables);
        Some(())
    }

    #[inline]
    fn count_gtid(&mut self, gtid: &Gtid) {
        let numbers = [
            gtid.flags.into(),
            gtid.sid.iter().map(|byte| u64::from(*byte)).sum(),
            gtid.gno,
            gtid.last_committed,
            gtid.sequence_number,
            gtid.immediate_time,
            gtid.original_time,
            gtid.length,
            gtid.immediate_version.into(),
            gtid.original_version.into(),
            gtid.ticket,
        ];
        self.gtids += 1;
        self.tag_bytes += gtid.tag.len() as u64;
        self.numbers = numbers.into_iter().fold(self.numbers, u64::wrapping_add);
    }

    #[inline]
    fn count_map(&mut self, map: &TableMap) {
        let bytes = [
            map.database.len(),
            map.table.len(),
            map.types.len(),
            map.metadata.len(),
            map.optional_metadata.len(),
        ];
        self.maps += 1;
        self.map_bytes += bytes.into_iter().sum::<usize>() as u64;
        let columns = map.types.len() as u64;
        self.row_numbers += map.id + u64::from(map.flags) + bits(columns, map.null_bits);
    }

    #[inline]
    fn count_rows(&mut self, event: &RowEvent) {
        self.row_events += 1;
        self.row_bytes += (event.extra.len() + event.rows.len()) as u64;
        let images = [event.before, event.after];
        let images = images.map(|image| image.map_or(0, |image| bits(event.columns, image)));
        self.row_numbers +=
            event.id + u64::from(event.flags) + event.columns + images[0] + images[1];
    }

    /// Up to the first that isn't whole.
    #[inline]
    fn count_variables(&mut self, mut text: &[u8]) {
        while let Some((value, rest)) = first_value(text) {
            self.variables += 1;
            self.values = self.values.wrapping_add(value);
            text = rest;
        }
    }
}

/// What is counted of the first variable, and the text behind it.
#[inline]
fn first_value(text: &[u8]) -> Option<(u64, &[u8])> {
    let (key, text) = text.split_first()?;
    match key {
        0 | 10 => number::<4>(text),
        1 | 9 | 17 => number::<8>(text),
        2 => {
            let (_, rest) = counted_text(text)?;
            let (_, rest) = rest.split_first()?;
            Some(((text.len() - rest.len()) as u64, rest))
        }
        3 => two_byte_numbers::<4>(text),
        4 => two_byte_numbers::<6>(text),
        5 | 6 => counted_text(text),
        7 | 8 | 18 => number::<2>(text),
        11 => {
            let (user, rest) = counted_text(text)?;
            let (host, rest) = counted_text(rest)?;
            Some((user + host, rest))
        }
        12 => names(text),
        13 => number::<3>(text),
        14 | 15 => Some((0, text)),
        16 => {
            let (is_set, rest) = text.split_first()?;
            Some(((*is_set != 0).into(), rest))
        }
        19 | 20 => number::<1>(text),
        _ => None,
    }
}

#[inline]
fn number<const COUNT: usize>(text: &[u8]) -> Option<(u64, &[u8])> {
    let (bytes, rest) = text.split_first_chunk::<COUNT>()?;
    let mut padded = [0; 8];
    padded[..COUNT].copy_from_slice(bytes);
    Some((u64::from_le_bytes(padded), rest))
}

/// Their sum.
#[inline]
fn two_byte_numbers<const COUNT: usize>(text: &[u8]) -> Option<(u64, &[u8])> {
    let (bytes, rest) = text.split_first_chunk::<COUNT>()?;
    let numbers = bytes.chunks_exact(2);
    let sum = numbers.map(|pair| u64::from(u16::from_le_bytes([pair[0], pair[1]])));
    Some((sum.sum(), rest))
}

/// The length of a text behind its length.
#[inline]
fn counted_text(text: &[u8]) -> Option<(u64, &[u8])> {
    let (length, text) = text.split_first()?;
    let rest = text.get(usize::from(*length)..)?;
    Some(((*length).into(), rest))
}

/// How many names there are, each ended by a zero byte.
#[inline]
fn names(text: &[u8]) -> Option<(u64, &[u8])> {
    let (count, mut rest) = text.split_first()?;
    if *count == TOO_MANY_NAMES {
        return Some((0, rest));
    }
    for _ in 0..*count {
        let end = rest.iter().position(|byte| *byte == 0)?;
        rest = &rest[end + 1..];
    }
    Some(((*count).into(), rest))
}
