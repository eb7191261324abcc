//! The recipes of docs/CALLING.md, each over a small log.

use binlog::consts::EventType;
use binlog::events::{Event, FormatDescriptionEvent, QueryEvent};
use binlog::{BinlogFileHeader, Error};
use binlog_tests::examples::copying::{copy_by_crc32, write_back};
use binlog_tests::examples::damaged_logs::{Findings, examine};
use binlog_tests::examples::filtering::copy_events;
use binlog_tests::examples::gtids::list_gtids;
use binlog_tests::examples::new_events::{append_event, log_of};
use binlog_tests::examples::replication::follow;
use binlog_tests::examples::row_events::list_changes;
use binlog_tests::examples::verifying::{count_mismatches, list_by_crc32};

const FILE_HEADER: &[u8] = &BinlogFileHeader::VALUE;

/// Events of MySQL 5.7 with the CRC-32 checksums that zlib computed: a format description with the in-use flag, a QUERY and an XID
/// event; and the last one with another number and the same checksum.
const DESCRIPTION: &[u8] =
    b"\xfd5\xbbJ\x0f\x01\0\0\0w\0\0\0\0\0\0\0\x01\0\x04\x005.7.44-log\0\0\0\0\0\0\0\0\0\0\0\0\0\0\0\0\
    \0\0\0\0\0\0\0\0\0\0\0\0\0\0\0\0\0\0\0\0\0\0\0\0\0\0\0\0\x138\x0d\0\x08\0\x12\0\x04\x04\x04\x04\
    \x12\0\0_\0\x04\x1a\x08\0\0\0\x08\x08\x08\x02\0\0\0\x0a\x0a\x0a**\0\x124\0\x01\x0cs\xba\xc5";
const STATEMENT: &[u8] =
    b"\xfd5\xbbJ\x02\x01\0\0\0H\0\0\0\xc3\0\0\0\x08\0\x01\0\0\0\0\0\0\0\x04\0\0\x1a\0\0\0@\0\0\x01\0\0\
    \0\0\0\0\0\0\x06\x03std\x04\x08\0\x08\0\x08\0test\0BEGIN\xd5\x87\x82\"";
const XID: &[u8] =
    b"\xfd5\xbbJ\x10\x01\0\0\0\x1f\0\0\0\xe2\0\0\0\0\0\x0b\0\0\0\0\0\0\0\x11\xfc\0\xed";
const DAMAGED_XID: &[u8] =
    b"\xfd5\xbbJ\x10\x01\0\0\0\x1f\0\0\0\xe2\0\0\0\0\0\x0c\0\0\0\0\0\0\0\x11\xfc\0\xed";

/// An XID event without a checksum, and a header without a body.
const PLAIN_XID: &[u8] = b"\0\0\0\0\x10\x01\0\0\0\x1b\0\0\0\0\0\0\0\0\0\x0b\0\0\0\0\0\0\0";
const STOP: &[u8] = b"\0\0\0\0\x03\x01\0\0\0\x13\0\0\0\0\0\0\0\0\0";

/// The output of a recipe, and its answer.
fn output_of<T>(recipe: impl FnOnce(&mut Vec<u8>) -> T) -> (Vec<u8>, T) {
    let mut output = Vec::new();
    let answer = recipe(&mut output);
    (output, answer)
}

#[test]
fn a_log_with_right_checksums_is_copied_byte_for_byte() {
    let log = [FILE_HEADER, DESCRIPTION, XID, XID].concat();
    let copied = output_of(|output| copy_by_crc32(&log[..], output));
    assert_eq!(copied, (log, Ok(())));
}

#[test]
fn a_copy_ends_at_a_damaged_event() {
    let log = [FILE_HEADER, DESCRIPTION, DAMAGED_XID, XID].concat();
    let (copy, answer) = output_of(|output| copy_by_crc32(&log[..], output));
    assert_eq!(copy, [FILE_HEADER, DESCRIPTION].concat());
    assert!(matches!(answer, Err(Error::ChecksumMismatch { .. })));
}

#[test]
fn a_wrong_checksum_is_written_back_right() {
    let mut log = [FILE_HEADER, DESCRIPTION, STATEMENT, XID].concat();
    let right = log.clone();
    *log.last_mut().unwrap() ^= 1;
    let written = output_of(|output| write_back(&log[..], output));
    assert_eq!(written, (right, Ok(())));
}

/// A format description of server 5.6.1 with algorithm 1, whose header length is 19; its last bytes are its checksum.
const DESCRIPTION_5_6: &[u8] = b"\0\0\0\0\x0f\x01\0\0\0\x51\0\0\0\0\0\0\0\0\0\
    \x04\x005.6.1\0\0\0\0\0\0\0\0\0\0\0\0\0\0\0\0\0\0\0\0\0\0\0\0\0\0\0\0\0\0\0\0\0\0\0\0\0\0\0\0\0\0\0\0\0\
    \0\0\0\0\x13\x01\x4d\0\0\0";

/// An event of three bytes, which has no room for a checksum; a ROTATE event whose position has seven bytes; and the header of an event
/// that states 18 bytes, one byte less than a header has.
const SHORT: &[u8] = b"\0\0\0\0\x10\x01\0\0\0\x16\0\0\0\0\0\0\0\0\0abc";
const SHORT_ROTATE: &[u8] =
    b"\0\0\0\0\x04\x01\0\0\0\x1e\0\0\0\0\0\0\0\0\0\x04\0\0\0\0\0\0\x1a\0\0\0";
const UNDERSIZED: &[u8] = b"\0\0\0\0\x10\x01\0\0\0\x12\0\0\0\0\0\0\0\0\0";

#[test]
fn damaged_events_are_counted() {
    let mut refused = DESCRIPTION_5_6.to_vec();
    refused[19 + 56] = 18;
    let log = [
        FILE_HEADER,
        DESCRIPTION_5_6,
        SHORT,
        SHORT_ROTATE,
        &refused,
        XID,
        // No event can be found behind it.
        UNDERSIZED,
        XID,
    ];
    let wanted = Findings {
        events: 2,
        damaged: 3,
        is_broken_off: true,
    };
    assert_eq!(examine(&log.concat()[..]), Ok(wanted));
}

#[test]
fn what_is_no_log_is_refused() {
    assert_eq!(examine(&b"\xfebi"[..]), Err(Error::EndOfInput));
    assert_eq!(examine(&b"\x89PNG"[..]), Err(Error::InvalidFileHeader));
}

#[test]
fn events_of_some_types_are_copied() {
    let types = [EventType::XID_EVENT, EventType::ROTATE_EVENT];
    for (events, copied) in [
        (&[DESCRIPTION, STATEMENT, XID][..], &[DESCRIPTION, XID][..]),
        (&[STOP, PLAIN_XID, STOP], &[PLAIN_XID]),
    ] {
        let log = [FILE_HEADER, &events.concat()].concat();
        let found = output_of(|output| copy_events(&log[..], &types, output));
        assert_eq!(found, ([FILE_HEADER, &copied.concat()].concat(), Ok(())));
    }
}

/// Transaction 23 of the source UUID that MySQL's reference manual uses as an example; and transaction 0 with the tag `test`, whose
/// source UUID is all zeros.
const GTID: &[u8] = b"\0\0\0\0\x21\x01\0\0\0\x2c\0\0\0\0\0\0\0\0\0\
    \x01\x3e\x11\xfa\x47\x71\xca\x11\xe1\x9e\x33\xc8\x0a\xa9\x42\x95\x62\x17\0\0\0\0\0\0\0";
const TAGGED: &[u8] = b"\0\0\0\0\x2a\x01\0\0\0\x1f\0\0\0\0\0\0\0\0\0\
    \x02\x18\x12\x06\x08test\xc6\xff\xff";

#[test]
fn gtids_are_listed_as_text() {
    let log = [FILE_HEADER, GTID, PLAIN_XID, TAGGED, PLAIN_XID].concat();
    let (lines, answer) = output_of(|output| list_gtids(&log[..], output));
    let wanted = "3e11fa47-71ca-11e1-9e33-c80aa9429562:23\n\
        00000000-0000-0000-0000-000000000000:test:0\n";
    assert_eq!(
        (String::from_utf8_lossy(&lines), answer),
        (wanted.into(), Ok(()))
    );
}

/// The description of a server 5.0.86, and a statement of it.
const EVENTS_5_0: &[u8] =
    b"\xfc5\xbbJ\x0f\x01\0\0\0^\0\0\0b\0\0\0\0\0\x04\x005.0.86-debug-log\0\0\0\0\0\0\0\0\0\0\0\0\0\0\
    \0\0\0\0\0\0\0\0\0\0\0\0\0\0\0\0\0\0\0\0\xfc5\xbbJ\x138\x0d\0\x08\0\x12\0\x04\x04\x04\x04\x12\0\
    \0K\0\x04\x1a\
    \xfc5\xbbJ\x02\x01\0\0\0d\0\0\0\xc6\0\0\0\0\0\x01\0\0\0\0\0\0\0\x04\0\0\x1a\0\0\0@\0\0\x01\0\0\0\
    \0\0\0\0\0\x06\x03std\x04\x08\0\x08\0\x08\0test\0create table t1(a int) engine= innodb";

#[test]
fn a_log_is_made_of_values() {
    let vars = &b"\0\0@\0\0\x01\0\0\0\0\0\0\0\0\x06\x03std\x04\x08\0\x08\0\x08\0"[..];
    let statement = QueryEvent::new(vars, &b"test"[..])
        .with_thread_id(1)
        .with_query(&b"create table t1(a int) engine= innodb"[..]);
    let lengths = b"\x38\x0d\0\x08\0\x12\0\x04\x04\x04\x04\x12\0\0K\0\x04\x1a";
    let log = log_of(b"5.0.86-debug-log", lengths, 0x4abb_35fc, &statement);
    assert_eq!(log, Ok([FILE_HEADER, EVENTS_5_0].concat()));
}

#[test]
fn a_statement_is_read_as_it_was_written() {
    let statement = QueryEvent::new(&b""[..], &b"d"[..]).with_query(&b"COMMIT"[..]);
    let mut log = Vec::new();
    append_event(0, &statement, &mut log).unwrap();
    let description = FormatDescriptionEvent::new(binlog::consts::BinlogVersion::Version4);
    let event = Event::read(&description, &mut &log[..]).unwrap();
    assert_eq!(event.read_event::<QueryEvent>(), Ok(statement));
}

/// The position 4 of the next log.
const ROTATE: &[u8] =
    b"\xfd5\xbbJ\x04\x01\0\0\x000\0\0\0\x12\x01\0\0\0\0\x04\0\0\0\0\0\0\0master-bin.000002abcd";

#[test]
fn events_of_a_stream_are_followed() {
    let stream = [DESCRIPTION, STATEMENT, XID, ROTATE].concat();
    for (len, log, position) in [
        (0, &b""[..], 0),
        (stream.len() - ROTATE.len() - XID.len(), b"", 195),
        (stream.len() - ROTATE.len(), b"", 226),
        (stream.len(), b"master-bin.000002", 4),
    ] {
        let place = follow(&stream[..len]).unwrap();
        assert_eq!((&place.log[..], place.position), (log, position));
    }
    assert_eq!(follow(&stream[..stream.len() - 1]), Err(Error::EndOfInput));
}

/// A table map of id 5: the table `t` of the database `d`, with one column. One row is inserted into it, and one is deleted from that
/// of id 6.
const MAP: &[u8] = b"\0\0\0\0\x13\x01\0\0\0\x25\0\0\0\0\0\0\0\0\0\
    \x05\0\0\0\0\0\x01\0\x01d\0\x01t\0\x01\x03\0\x01";
const WRITE_ROWS: &[u8] = b"\0\0\0\0\x1e\x01\0\0\0\x21\0\0\0\0\0\0\0\0\0\
    \x05\0\0\0\0\0\x01\0\x02\0\x01\x01\xfe\x07";
const DELETE_ROWS: &[u8] = b"\0\0\0\0\x20\x01\0\0\0\x21\0\0\0\0\0\0\0\0\0\
    \x06\0\0\0\0\0\x01\0\x02\0\x01\x01\xfe\x07";

#[test]
fn row_events_are_listed_with_their_tables() {
    let log = [FILE_HEADER, MAP, WRITE_ROWS, DELETE_ROWS].concat();
    let (lines, answer) = output_of(|output| list_changes(&log[..], output));
    let wanted = "d.t: 1 columns\ntable 6 is not mapped\n";
    assert_eq!(
        (String::from_utf8_lossy(&lines), answer),
        (wanted.into(), Ok(()))
    );
}

#[test]
fn a_damaged_event_is_listed_and_counted_as_a_mismatch() {
    let log = [FILE_HEADER, DESCRIPTION, DAMAGED_XID, XID].concat();
    let (lines, answer) = output_of(|output| list_by_crc32(&log[..], output));
    let wanted = "0 15 119 0 0001 95 0c73bac5 read\n\
        1 error E17\n\
        2 16 31 226 0000 8 11fc00ed read\n";
    assert_eq!(
        (String::from_utf8_lossy(&lines), answer),
        (wanted.into(), Ok(true))
    );
    assert_eq!(count_mismatches(&log[..]), Ok(1));
}
