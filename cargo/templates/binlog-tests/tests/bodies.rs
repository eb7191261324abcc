//! Headers, footers and format descriptions, and the builders and getters of the smaller bodies.

use binlog::consts::{BinlogChecksumAlg, BinlogVersion, EventFlags, EventType};
use binlog::consts::{IncidentType, IntvarEventType};
use binlog::events::{BeginLoadQueryEvent, BinlogEventFooter, BinlogEventHeader};
use binlog::events::{EventData, FormatDescriptionEvent, IncidentEvent, IntvarEvent, RotateEvent};
use binlog::events::{RowsQueryEvent, split_version};
use binlog::raw::{MyDeserialize, MySerialize, ParseBuf};
use binlog::{BinlogCtx, BinlogEvent, BinlogStruct, DescriptionRef, Error, read_body};

const VERSION: BinlogVersion = BinlogVersion::Version4;

/// The body of the format description at the start of a file of MySQL 5.0.86.
const DESCRIPTION: &[u8] =
    b"\x04\x005.0.86-debug-log\0\0\0\0\0\0\0\0\0\0\0\0\0\0\0\0\0\0\0\0\0\0\0\0\0\0\0\0\0\0\0\0\0\0\
    \xfc\x35\xbb\x4a\x13\x38\x0d\0\x08\0\x12\0\x04\x04\x04\x04\x12\0\0\x4b\0\x04\x1a";

/// The header of an XID event.
const HEADER: &[u8; 19] = b"\xfd\x35\xbb\x4a\x10\x01\0\0\0\x1b\0\0\0\x44\x02\0\0\x08\0";

fn read<'a, T: BinlogEvent<'a>>(body: &'a [u8]) -> Result<T, Error> {
    let size = BinlogEventHeader::LEN + body.len();
    let number = u8::from(T::EVENT_TYPE);
    read_body(
        BinlogCtx::new(size, DescriptionRef::new(VERSION), number),
        body,
    )
}

fn written(value: &impl MySerialize) -> Vec<u8> {
    let mut bytes = Vec::new();
    value.serialize(&mut bytes).unwrap();
    bytes
}

fn crc32_footer() -> BinlogEventFooter {
    BinlogEventFooter::new(BinlogChecksumAlg::BINLOG_CHECKSUM_ALG_CRC32)
}

#[test]
fn a_header_has_19_bytes() {
    let header = BinlogEventHeader::new(
        0x4abb_35fd,
        EventType::XID_EVENT,
        1,
        27,
        580,
        EventFlags::LOG_EVENT_SUPPRESS_USE_F,
    );
    assert_eq!(BinlogEventHeader::from_bytes(HEADER), header);
    let whole = BinlogEventHeader::deserialize((), &mut ParseBuf(HEADER));
    assert_eq!(whole, Ok(header));
    let cut = BinlogEventHeader::deserialize((), &mut ParseBuf(&HEADER[..18]));
    assert_eq!(cut, Err(Error::EndOfBody));
    assert_eq!(written(&header), HEADER);
}

#[test]
fn checksums_are_enabled_until_they_are_disabled() {
    let mut footer = BinlogEventFooter::read(DESCRIPTION);
    assert!(footer.get_checksum_enabled());
    footer.set_checksum_enabled(false);
    assert!(!footer.get_checksum_enabled());
    assert_eq!(footer.get_checksum_alg(), Ok(None));
}

#[test]
fn descriptions_have_post_header_lengths() {
    let default = FormatDescriptionEvent::new(VERSION);
    let read: FormatDescriptionEvent = read(DESCRIPTION).unwrap();
    for (event_type, of_default, of_read) in [
        (EventType::UNKNOWN_EVENT, 0, 0),
        (EventType::QUERY_EVENT, 13, 13),
        (EventType::ROTATE_EVENT, 8, 8),
        (EventType::FORMAT_DESCRIPTION_EVENT, 99, 75),
        (EventType::EXECUTE_LOAD_QUERY_EVENT, 26, 26),
        (EventType::TABLE_MAP_EVENT, 8, 8),
    ] {
        let lengths = [&default, &read].map(|fde| fde.get_event_type_header_length(event_type));
        assert_eq!(lengths, [of_default, of_read]);
    }
}

#[test]
fn a_description_is_written_as_it_was_set() {
    let description = FormatDescriptionEvent::new(VERSION)
        .with_binlog_version(BinlogVersion::Version3)
        .with_server_version(b"5.6.1")
        .with_create_timestamp(1)
        .with_footer(crc32_footer());
    assert_eq!(description.footer(), crc32_footer());
    let bytes = written(&description);
    assert_eq!((bytes.len(), description.len(VERSION)), (57, 57));
    assert!(bytes.starts_with(b"\x03\x005.6.1\0\0\0\0"));
}

#[test]
fn a_borrowed_description_has_its_parts() {
    let description = DescriptionRef::read(DESCRIPTION).unwrap();
    assert_eq!(description.binlog_version(), VERSION);
    assert_eq!(description.create_timestamp(), 0x4abb_35fc);
    assert_eq!(description.event_type_header_lengths().len(), 18);
    let own = EventType::FORMAT_DESCRIPTION_EVENT;
    assert_eq!(description.get_event_type_header_length(own), 75);
    assert_eq!(description.split_version(), (5, 0, 86));
    assert_eq!(description.server_version_raw().len(), 50);
    assert_eq!(
        description.server_version().trim_end_matches('\0'),
        "5.0.86-debug-log"
    );
    assert_eq!(
        DescriptionRef::read(b"\x04\0").err(),
        Some(Error::EndOfBody)
    );
}

#[test]
fn a_borrowed_description_is_an_event() {
    let description = DescriptionRef::read(DESCRIPTION).unwrap();
    let event = description.to_event();
    assert_eq!(event.as_ref(), description);
    let size = BinlogEventHeader::LEN + DESCRIPTION.len();
    let ctx = BinlogCtx::new(size, description, 15);
    assert_eq!(read_body(ctx, DESCRIPTION), Ok(event));
    assert_eq!(
        description.with_footer(crc32_footer()).footer(),
        crc32_footer()
    );
    let older = BinlogVersion::Version3;
    assert_eq!(
        DescriptionRef::new(older).to_event(),
        FormatDescriptionEvent::new(older)
    );
}

#[test]
fn a_description_has_the_footer_of_the_one_in_force() {
    let in_force = DescriptionRef::new(VERSION).with_footer(crc32_footer());
    let size = BinlogEventHeader::LEN + DESCRIPTION.len();
    match EventData::read(BinlogCtx::new(size, in_force, 15), DESCRIPTION) {
        Ok(Some(EventData::FormatDescriptionEvent(event))) => {
            assert_eq!(event.footer(), crc32_footer());
        }
        data => panic!("{data:?}"),
    }
}

#[test]
fn versions_have_three_numbers() {
    for (version, numbers) in [
        (&b"5.7.44-log"[..], (5, 7, 44)),
        (b"5.6", (5, 6, 0)),
        (b".6.1", (0, 6, 1)),
        (b"5", (0, 0, 0)),
        (b"5.300.1", (0, 0, 0)),
        (b"", (0, 0, 0)),
        (b"0000000005.6.1", (5, 6, 1)),
        (b"255.255.255.255", (255, 255, 255)),
        (b"256.1.1", (0, 0, 0)),
        (b"8.0-rc", (8, 0, 0)),
        (b"5..7", (5, 0, 7)),
    ] {
        assert_eq!(split_version(version), numbers);
    }
}

#[test]
fn a_rotate_to_position_0_is_fake() {
    let event = RotateEvent::new(4, b"binlog.000002")
        .with_position(0)
        .with_name(b"a\xff");
    assert!(event.is_fake());
    assert_eq!(event.position(), 0);
    assert_eq!(event.name_raw(), b"a\xff");
}

#[test]
fn a_rotate_is_shown_by_its_parts() {
    assert_eq!(
        format!("{:?}", RotateEvent::new(4, b"a.1")),
        "RotateEvent { position: 4, name: [97, 46, 49] }"
    );
}

#[test]
fn an_integer_variable_has_its_parts() {
    let event = IntvarEvent::new(IntvarEventType::INVALID_INT_EVENT, 0)
        .with_subtype(IntvarEventType::LAST_INSERT_ID_EVENT)
        .with_value(258);
    assert_eq!(event.subtype(), IntvarEventType::LAST_INSERT_ID_EVENT);
    assert_eq!(event.value(), 258);
    assert_eq!(event.len(VERSION), 9);
    assert_eq!(written(&event), b"\x01\x02\x01\0\0\0\0\0\0");
}

#[test]
fn the_message_of_an_incident_is_cut_at_255_bytes() {
    let event = IncidentEvent::new(IncidentType::LOST_EVENTS, &[b'm'; 300]);
    assert_eq!(event.message_raw(), [b'm'; 255]);
    assert_eq!(event.message(), "m".repeat(255));
    assert_eq!(event.len(VERSION), 258);
    let body = [b"\x01\0\xff", &[b'm'; 255][..]].concat();
    assert_eq!(written(&event), body);
    assert_ne!(read(&body), Ok(event));
}

#[test]
fn an_incident_has_its_parts() {
    let event = IncidentEvent::new(IncidentType::LOST_EVENTS, b"lost")
        .with_incident_type(IncidentType::NONE)
        .with_message(b"");
    assert_eq!(event.incident_type(), Ok(IncidentType::NONE));
    assert_eq!(event.message_raw(), b"");
}

#[test]
fn a_statement_of_rows_and_a_block_of_a_file_have_their_parts() {
    let statement = RowsQueryEvent::new(b"insert into t1 values (1)");
    assert_eq!(statement.query_raw(), b"insert into t1 values (1)");
    let block = BeginLoadQueryEvent::new(0)
        .with_file_id(513)
        .with_block_data(b"block");
    assert_eq!(block.file_id(), 513);
    assert_eq!(block.block_data(), b"block");
}
