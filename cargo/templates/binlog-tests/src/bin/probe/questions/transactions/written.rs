//! Events that are written.
use crate::questions::bytes;
use binlog::consts::{EventFlags, EventType};
use binlog::events::BinlogEventHeader;
use binlog::undo::{EventsWriter, Heading};

// Writes the event of a word, of events with this header; None if it can't be written.
fn push(header: &BinlogEventHeader, word: &str, writer: &mut EventsWriter) -> Option<()> {
    match word.split_once(':') {
        None if word == "begin" => writer.push_begin(header).ok(),
        Some(("xid", number)) => writer.push_commit(header, number.parse().ok()?).ok(),
        Some((number, digits)) => {
            let event_type = EventType::try_from(number.parse::<u8>().ok()?).ok()?;
            let body = bytes::bytes_of(digits)?;
            writer.push(Heading::of_source(header), event_type, &body).ok()
        }
        None => None,
    }
}

/// The bytes of the events of these words; None if they are no such words.
pub(crate) fn bytes_of(words: &str) -> Option<Vec<u8>> {
    let mut words = words.split(' ');
    let mut next = || words.next();
    let place = next()?.parse().ok()?;
    let has_checksums = next()? == "1";
    let timestamp = next()?.parse().ok()?;
    let server_id = next()?.parse().ok()?;
    let flags = EventFlags::from_bits_retain(next()?.parse().ok()?);
    let header = BinlogEventHeader::new(timestamp, EventType::XID_EVENT, server_id, 0, 0, flags);
    let mut writer = EventsWriter::new(place, has_checksums);
    for word in words {
        push(&header, word, &mut writer)?;
    }
    Some(writer.as_bytes().to_vec())
}
