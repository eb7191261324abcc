//! Writes a log of one statement: `build_log DATABASE STATEMENT FILE`
use binlog::consts::{BinlogVersion, EventFlags};
use binlog::events::{BinlogEventHeader, FormatDescriptionEvent, QueryEvent};
use binlog::raw::{Flags, MySerialize};
use binlog::{BinlogEvent, BinlogFileHeader};
use std::error::Error;

fn main() -> Result<(), Box<dyn Error>> {
    let words: Vec<String> = std::env::args().collect();
    let [_, database, statement, to] = &words[..] else {
        return Err("usage: build_log DATABASE STATEMENT FILE".into());
    };
    // The lengths of post-headers of MySQL 5.0, by type.
    let lengths = [56, 13, 0, 8, 0, 18, 0, 4, 4, 4, 4, 18, 0, 0, 75, 0, 4, 26];
    let description = FormatDescriptionEvent::new(BinlogVersion::Version4)
        .with_server_version(&b"5.0.86-log"[..])
        .with_event_type_header_lengths(&lengths[..]);
    let query = QueryEvent::new(&b""[..], database.as_bytes()).with_query(statement.as_bytes());
    let mut log = Vec::new();
    BinlogFileHeader.write(BinlogVersion::Version4, &mut log)?;
    append(&description, &mut log)?;
    append(&query, &mut log)?;
    std::fs::write(to, log)?;
    Ok(())
}

fn append<'a, T: BinlogEvent<'a>>(body: &T, log: &mut Vec<u8>) -> Result<(), Box<dyn Error>> {
    let mut bytes = Vec::new();
    body.serialize(&mut bytes)?;
    let size = BinlogEventHeader::LEN + bytes.len();
    let (event_size, log_pos) = (u32::try_from(size)?, u32::try_from(log.len() + size)?);
    let (time, server_id, flags) = (0, 1, EventFlags::empty());
    BinlogEventHeader::new(time, T::EVENT_TYPE, server_id, event_size, log_pos, flags).serialize(log)?;
    log.extend(bytes);
    Ok(())
}
