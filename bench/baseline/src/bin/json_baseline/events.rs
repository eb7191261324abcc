//! The lines of events.

use crate::footer::Footer;
use crate::frames::{event_size, event_type, flags, log_pos, HEADER_LENGTH};
use crate::gtids::Gtid;
use crate::line::Line;
use crate::row_values::write_rows;
use crate::rows::{RowEvent, TableMap};
use crate::tables::Tables;

const QUERY: u8 = 2;
const FORMAT_DESCRIPTION: u8 = 15;
const XID: u8 = 16;
const TABLE_MAP: u8 = 19;
const GTID: u8 = 33;
const MARIA_GTID: u8 = 162;
/// Those that insert, update and delete, in both versions.
const ROW_EVENTS: [u8; 6] = [23, 24, 25, 30, 31, 32];

/// Where a description states the lengths of post-headers, from type 1 on.
const STATED_LENGTHS: usize = 57;
const VERSION_LENGTH: usize = 50;

#[derive(Default)]
pub struct Log {
    in_force: Option<Footer>,
    post_headers: Vec<u8>,
    tables: Tables,
    index: u64,
}

/// The type's number and name as members, and the key of the next one.
#[inline(always)]
fn type_members(number: u8) -> Option<&'static [u8]> {
    Some(match number {
        QUERY => b",\"type\":2,\"name\":\"QUERY_EVENT\",\"timestamp\":",
        FORMAT_DESCRIPTION => b",\"type\":15,\"name\":\"FORMAT_DESCRIPTION_EVENT\",\"timestamp\":",
        XID => b",\"type\":16,\"name\":\"XID_EVENT\",\"timestamp\":",
        TABLE_MAP => b",\"type\":19,\"name\":\"TABLE_MAP_EVENT\",\"timestamp\":",
        23 => b",\"type\":23,\"name\":\"WRITE_ROWS_EVENT_V1\",\"timestamp\":",
        24 => b",\"type\":24,\"name\":\"UPDATE_ROWS_EVENT_V1\",\"timestamp\":",
        25 => b",\"type\":25,\"name\":\"DELETE_ROWS_EVENT_V1\",\"timestamp\":",
        30 => b",\"type\":30,\"name\":\"WRITE_ROWS_EVENT\",\"timestamp\":",
        31 => b",\"type\":31,\"name\":\"UPDATE_ROWS_EVENT\",\"timestamp\":",
        32 => b",\"type\":32,\"name\":\"DELETE_ROWS_EVENT\",\"timestamp\":",
        GTID => b",\"type\":33,\"name\":\"GTID_EVENT\",\"timestamp\":",
        MARIA_GTID => b",\"type\":162,\"name\":\"GTID_EVENT\",\"timestamp\":",
        _ => return None,
    })
}

#[inline(always)]
fn word(frame: &[u8], at: usize) -> u64 {
    u32::from_le_bytes([frame[at], frame[at + 1], frame[at + 2], frame[at + 3]]).into()
}

impl Log {
    fn post_header(&self, number: u8, default: u8) -> u8 {
        self.post_headers.get(usize::from(number) - 1).copied().unwrap_or(default)
    }

    /// None if the event isn't supported.
    #[inline(always)]
    pub fn write_event(&mut self, line: &mut Line, frame: &[u8]) -> Option<()> {
        let number = event_type(frame);
        let in_force = self.in_force.get_or_insert(Footer::NONE).take(frame);
        let (suffix, has_checksum) = in_force.suffix(frame);
        let body = frame.get(HEADER_LENGTH..frame.len().checked_sub(suffix)?)?;
        line.reserve(0);
        line.named(b"{\"index\":", self.index);
        self.index += 1;
        line.text(type_members(number)?);
        line.number(word(frame, 0));
        line.named(b",\"server_id\":", word(frame, 5));
        line.named(b",\"event_size\":", event_size(frame).into());
        line.named(b",\"log_pos\":", log_pos(frame).into());
        line.named(b",\"flags\":", flags(frame).into());
        line.piece(b",\"checksum\":");
        match frame.last_chunk::<4>().filter(|_| has_checksum) {
            Some(checksum) => line.hexadecimal(checksum),
            None => line.piece(b"null"),
        }
        if let Some(kind) = ROW_EVENTS.iter().position(|other| *other == number) {
            self.write_row_event(line, number, kind, body)?;
        } else {
            line.piece(b",\"data\":{");
            self.write_body(line, number, word(frame, 5), body)?;
        }
        line.piece(b"}}\n");
        Some(())
    }

    #[inline(always)]
    fn write_body(&mut self, line: &mut Line, number: u8, server_id: u64, body: &[u8]) -> Option<()> {
        match number {
            TABLE_MAP => self.write_table_map(line, body)?,
            XID => line.named(b"\"xid\":", u64::from_le_bytes(body.try_into().ok()?)),
            QUERY => write_query(line, body)?,
            GTID => write_gtid(line, &Gtid::untagged(body)?),
            MARIA_GTID => write_maria_gtid(line, server_id, body)?,
            FORMAT_DESCRIPTION => self.write_description(line, body)?,
            _ => return None,
        }
        Some(())
    }

    /// The members of the table and of the rows, and the data of the event.
    #[inline(always)]
    fn write_row_event(&self, line: &mut Line, number: u8, kind: usize, body: &[u8]) -> Option<()> {
        let post_header = self.post_header(number, if number < 30 { 8 } else { 10 });
        let event = RowEvent::read(body, post_header, kind % 3 != 0, kind % 3 != 2)?;
        let table = self.tables.find(event.id)?;
        line.text(&table.members);
        write_rows(line, table, &event)?;
        line.named(b",\"data\":{\"table_id\":", event.id);
        line.named(b",\"flags\":", event.flags.into());
        if !event.extra.is_empty() {
            line.piece(b",\"extra_data\":");
            line.hexadecimal(event.extra);
        }
        line.named(b",\"num_columns\":", event.columns);
        line.piece(b",\"columns_before_image\":");
        write_image_bits(line, event.before, event.columns);
        line.piece(b",\"columns_after_image\":");
        write_image_bits(line, event.after, event.columns);
        Some(())
    }

    fn write_table_map(&mut self, line: &mut Line, body: &[u8]) -> Option<()> {
        let map = TableMap::read(body, self.post_header(TABLE_MAP, 8))?;
        self.tables.keep(&map, body)?;
        line.named(b"\"table_id\":", map.id);
        line.named(b",\"flags\":", map.flags.into());
        line.piece(b",\"database_name\":");
        line.string(map.database);
        line.piece(b",\"table_name\":");
        line.string(map.table);
        line.named(b",\"columns_count\":", map.types.len() as u64);
        line.piece(b",\"columns_type\":");
        line.hexadecimal(map.types);
        line.piece(b",\"columns_metadata\":");
        line.hexadecimal(map.metadata);
        line.piece(b",\"null_bitmask\":");
        line.bits(map.null_bits, map.types.len());
        line.piece(b",\"optional_metadata\":");
        line.hexadecimal(map.optional_metadata);
        Some(())
    }

    #[cold]
    fn write_description(&mut self, line: &mut Line, body: &[u8]) -> Option<()> {
        let (head, lengths) = body.split_at_checked(STATED_LENGTHS)?;
        self.post_headers = lengths.to_vec();
        let version = &head[2..2 + VERSION_LENGTH];
        line.named(b"\"binlog_version\":", u16::from_le_bytes([head[0], head[1]]).into());
        line.piece(b",\"server_version\":");
        line.string(version.split(|byte| *byte == 0).next()?);
        line.named(b",\"create_timestamp\":", word(head, 2 + VERSION_LENGTH));
        line.named(b",\"event_header_length\":", head[STATED_LENGTHS - 1].into());
        line.piece(b",\"event_type_header_lengths\":");
        line.hexadecimal(lengths);
        line.piece(b",\"checksum_alg\":0");
        Some(())
    }
}

#[inline(always)]
fn write_image_bits(line: &mut Line, bits: Option<&[u8]>, count: u64) {
    match bits {
        Some(bits) => line.bits(bits, count as usize),
        None => line.piece(b"null"),
    }
}

/// None if the statement isn't ASCII, whose characters are the same in all character sets here.
fn write_query(line: &mut Line, body: &[u8]) -> Option<()> {
    let (head, rest) = body.split_first_chunk::<13>()?;
    let (variables, rest) = rest.split_at_checked(u16::from_le_bytes([head[11], head[12]]).into())?;
    let (schema, rest) = rest.split_at_checked(head[8].into())?;
    let query = rest.get(1..).filter(|query| query.is_ascii())?;
    line.named(b"\"thread_id\":", word(head, 0));
    line.named(b",\"execution_time\":", word(head, 4));
    line.named(b",\"error_code\":", u16::from_le_bytes([head[9], head[10]]).into());
    line.piece(b",\"status_vars\":");
    write_variables(line, variables)?;
    line.piece(b",\"schema\":");
    line.string(schema);
    line.piece(b",\"query\":");
    line.string(query);
    Some(())
}

fn write_variables(line: &mut Line, mut rest: &[u8]) -> Option<()> {
    let begin = line.length();
    while let [key, value @ ..] = rest {
        line.reserve(0);
        rest = match key {
            0 => {
                let (value, rest) = value.split_first_chunk()?;
                line.named(b",{\"key\":\"Flags2\",\"value\":", u32::from_le_bytes(*value).into());
                rest
            }
            1 => {
                let (value, rest) = value.split_first_chunk()?;
                line.named(b",{\"key\":\"SqlMode\",\"value\":", u64::from_le_bytes(*value));
                rest
            }
            4 => {
                let (value, rest) = value.split_first_chunk::<6>()?;
                line.named(
                    b",{\"key\":\"Charset\",\"value\":{\"charset_client\":",
                    u16::from_le_bytes([value[0], value[1]]).into(),
                );
                line.named(b",\"collation_connection\":", u16::from_le_bytes([value[2], value[3]]).into());
                line.named(b",\"collation_server\":", u16::from_le_bytes([value[4], value[5]]).into());
                line.piece(b"}");
                rest
            }
            6 => {
                let (length, value) = value.split_first()?;
                let (value, rest) = value.split_at_checked((*length).into())?;
                line.piece(b",{\"key\":\"CatalogNz\",\"value\":");
                line.string(value);
                rest
            }
            _ => return None,
        };
        line.piece(b"}");
    }
    line.close_array(begin);
    Some(())
}

fn write_gtid(line: &mut Line, gtid: &Gtid) {
    line.named(b"\"flags\":", gtid.flags.into());
    line.piece(b",\"sid\":\"");
    for (index, byte) in gtid.sid.iter().enumerate() {
        if matches!(index, 4 | 6 | 8 | 10) {
            line.piece(b"-");
        }
        let digits = b"0123456789abcdef";
        line.piece(&[digits[usize::from(byte >> 4)], digits[usize::from(byte & 15)]]);
    }
    line.named(b"\",\"gno\":", gtid.gno);
    line.piece(b",\"tag\":null,\"lc_typecode\":2");
    line.named(b",\"last_committed\":", gtid.last_committed);
    line.named(b",\"sequence_number\":", gtid.sequence_number);
    line.named(b",\"immediate_commit_timestamp\":", gtid.immediate_time);
    line.named(b",\"original_commit_timestamp\":", gtid.original_time);
    line.named(b",\"tx_length\":", gtid.length);
    line.named(b",\"immediate_server_version\":", gtid.immediate_version.into());
    line.named(b",\"original_server_version\":", gtid.original_version.into());
    line.named(b",\"commit_group_ticket\":", gtid.ticket);
}

/// None of a GTID with a commit id, or without the flags of further parts, or with such parts.
fn write_maria_gtid(line: &mut Line, server_id: u64, body: &[u8]) -> Option<()> {
    let (sequence, rest) = body.split_first_chunk::<8>()?;
    let (head, parts) = rest.split_first_chunk::<5>()?;
    if head[4] & 2 != 0 || parts.first() != Some(&0) {
        return None;
    }
    line.named(b"\"gtid\":\"", word(head, 0));
    line.named(b"-", server_id);
    line.named(b"-", u64::from_le_bytes(*sequence));
    line.named(b"\",\"flags\":", head[4].into());
    line.piece(b",\"commit_id\":null,\"xa_id\":null,\"extra\":{\"flags\":0");
    line.piece(b",\"engines\":null,\"alter_sequence\":null,\"thread_id\":null}");
    Some(())
}
