//! Logs: which items a file, a stream and a slice give, what is in force behind each, checksums, and what is written.
//!
//! Where nothing else is said, the checksum of an event is the number of the bytes before it, which `count` gives.

mod bytes;
mod checksums;
mod framing;
mod in_force;
mod items;
mod single_events;
mod verified;
mod writing;

use binlog::consts::{BinlogChecksumAlg, BinlogVersion};
use binlog::events::{BinlogEventFooter, Event, FormatDescriptionEvent};
use binlog::{Error, EventRef};

const VERSION: BinlogVersion = BinlogVersion::Version4;
const CRC32: BinlogChecksumAlg = BinlogChecksumAlg::BINLOG_CHECKSUM_ALG_CRC32;

/// An event as its type, the length of its data and its checksum, or the number of an error.
type Item = Result<(u8, usize, Option<[u8; 4]>), u8>;

fn seen(item: Result<EventRef<'_>, Error>) -> Item {
    match item {
        Ok(event) => Ok((
            event.header().event_type_raw(),
            event.data().len(),
            event.checksum(),
        )),
        Err(error) => Err(error.number()),
    }
}

fn seen_owned(item: Result<Event, Error>) -> Item {
    match item {
        Ok(event) => seen(Ok(event.as_ref())),
        Err(error) => Err(error.number()),
    }
}

/// In the place of CRC-32: the number of bytes.
fn count(bytes: &[u8]) -> u32 {
    bytes.len() as u32
}

/// In the place of CRC-32: the low byte of the header's flags.
fn low_flags(bytes: &[u8]) -> u32 {
    u32::from(bytes[17])
}

/// The event of these bytes, under the default description with this footer.
fn event_under(footer: BinlogEventFooter, mut bytes: &[u8]) -> Result<Event, Error> {
    let description = FormatDescriptionEvent::new(VERSION).with_footer(footer);
    Event::read(&description, &mut bytes)
}

/// The same with checksums, and without.
fn checksummed(bytes: &[u8]) -> Result<Event, Error> {
    event_under(BinlogEventFooter::new(CRC32), bytes)
}

fn plain(bytes: &[u8]) -> Result<Event, Error> {
    event_under(BinlogEventFooter::default(), bytes)
}
