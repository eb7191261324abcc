//! Whether the data of an event is a body of its type. Of types that the benchmark's logs don't have it isn't looked at.

use crate::frames::{event_type, HEADER_LENGTH};
use crate::gtids::Gtid;
use crate::rows::{RowEvent, TableMap};

const QUERY: u8 = 2;
const FORMAT_DESCRIPTION: u8 = 15;
const TABLE_MAP: u8 = 19;
const WRITE_ROWS: u8 = 30;
const UPDATE_ROWS: u8 = 31;
const DELETE_ROWS: u8 = 32;
const GTID: u8 = 33;
const NO_TYPE: u8 = 41;
const GTID_TAGGED: u8 = 42;
const LAST_TYPE: u8 = 43;

/// Where a description states the lengths of post-headers, from type 1 on.
const STATED_LENGTHS: usize = HEADER_LENGTH + 57;
const STATEMENT_HEAD_LENGTH: usize = 13;

/// How long post-headers are under the description in force.
pub struct PostHeaders {
    pub statement: usize,
    pub table_map: u8,
    pub write_rows: u8,
    pub update_rows: u8,
    pub delete_rows: u8,
}

impl PostHeaders {
    /// Those that a description states, and else the default ones.
    #[cold]
    pub fn stated(description: &[u8]) -> Self {
        let stated = |event_type: u8, default: u8| {
            let place = STATED_LENGTHS + usize::from(event_type) - 1;
            description.get(place).copied().unwrap_or(default)
        };
        PostHeaders {
            statement: usize::from(stated(QUERY, 0)).max(STATEMENT_HEAD_LENGTH),
            table_map: stated(TABLE_MAP, 8),
            write_rows: stated(WRITE_ROWS, 10),
            update_rows: stated(UPDATE_ROWS, 10),
            delete_rows: stated(DELETE_ROWS, 10),
        }
    }

    /// Those of this event without its checksum, if it is a description.
    #[inline]
    pub fn take(&mut self, event: &[u8]) {
        if event_type(event) == FORMAT_DESCRIPTION {
            *self = PostHeaders::stated(event);
        }
    }
}

#[inline]
pub fn word(event_type: u8, data: &[u8], post_headers: &PostHeaders) -> &'static [u8] {
    let is_body = match event_type {
        QUERY => is_statement(data, post_headers.statement),
        TABLE_MAP => TableMap::read(data, post_headers.table_map).is_some(),
        WRITE_ROWS => RowEvent::read(data, post_headers.write_rows, false, true).is_some(),
        UPDATE_ROWS => RowEvent::read(data, post_headers.update_rows, true, true).is_some(),
        DELETE_ROWS => RowEvent::read(data, post_headers.delete_rows, true, false).is_some(),
        GTID => Gtid::untagged(data).is_some(),
        GTID_TAGGED => Gtid::tagged(data).is_some(),
        NO_TYPE => return b"unknown",
        other if other > LAST_TYPE => return b"unknown",
        _ => true,
    };
    if is_body {
        b"read"
    } else {
        b"refused"
    }
}

/// A head, the status variables, the schema and its zero byte, and the text.
#[inline]
fn is_statement(data: &[u8], head_length: usize) -> bool {
    let Some((head, _)) = data.split_first_chunk::<STATEMENT_HEAD_LENGTH>() else {
        return false;
    };
    let schema_length = usize::from(head[8]);
    let variables_length = usize::from(u16::from_le_bytes([head[11], head[12]]));
    head_length + variables_length + schema_length < data.len()
}
