//! Payloads of compressed transactions.
use super::bytes::{bytes_of, digits_of, limited_bytes_of, shown};
use binlog::consts::BinlogVersion;
use binlog::counted::SliceReader;
use binlog::json_lines::{content_description, read_decompressed};
use binlog::payloads::{TransactionPayloadEvent, TransactionPayloadReader};
use binlog::raw::MySerialize;
use binlog::{DescriptionRef, EventStreamReader};

/// What the data of an event say, and its content, of at most so many bytes.
pub(crate) fn payload(asked: &str) -> Option<String> {
    let (limit, bytes) = limited_bytes_of(asked)?;
    let event = match TransactionPayloadEvent::read(&bytes) {
        Ok(event) => event,
        Err(error) => return Some(format!("refused {error:?}")),
    };
    let mut written = Vec::new();
    event.serialize(&mut written).ok()?;
    let content = match event.decompressed(limit) {
        Ok(content) => shown_content(&content),
        Err(error) => format!("refused {error:?}"),
    };
    let (algorithm, size) = (event.algorithm(), event.uncompressed_size());
    let written = digits_of(&written);
    Some(format!("{algorithm:?} {size:?} {} {written} {content}", event.payload_size()))
}

// The content, and the type and the size of each of its events.
fn shown_content(content: &[u8]) -> String {
    let mut words = vec![shown(content)];
    let fde = DescriptionRef::new(BinlogVersion::Version4);
    for item in TransactionPayloadReader::new(fde, content) {
        words.push(match item {
            Ok(event) => {
                let header = event.header();
                format!("{}:{}:{}", header.event_type_raw(), event.frame().len(), event.data().len())
            }
            Err(error) => format!("{error:?}"),
        });
    }
    words.join(" ")
}

/// The events of a content, as the reader of a stream reads them behind events of the stream.
pub(crate) fn inner(asked: &str) -> Option<String> {
    let (stream, content) = asked.split_once(' ')?;
    let (stream, content) = (bytes_of(stream)?, bytes_of(content)?);
    let mut reader = EventStreamReader::new(BinlogVersion::Version4);
    let mut input = SliceReader::new(&stream);
    while reader.read_counted(&mut input).ok()?.is_some() {}
    let fde = content_description(reader.get_fde().as_ref()).ok()?;
    let mut left = content.as_slice();
    let mut words = Vec::new();
    for _ in 0..content.len() {
        match read_decompressed(&mut reader, &fde, &mut left) {
            Ok(Some(event)) => {
                let known = is_known(&reader, event.data());
                words.push(format!("{}:{}:{known}", event.header().event_type_raw(), event.data().len()));
            }
            Ok(None) => {}
            Err(error) => words.push(format!("{error:?}")),
        }
    }
    words.push(left.len().to_string());
    Some(words.join(" "))
}

// Whether a table map is in force for the id with which the data begin.
fn is_known(reader: &EventStreamReader, bytes: &[u8]) -> bool {
    let Some(id) = bytes.first_chunk::<6>() else {
        return false;
    };
    let id = id.iter().rev().fold(0, |id, byte| id << 8 | u64::from(*byte));
    reader.get_tme(id).is_some()
}
