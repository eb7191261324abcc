//! What `mysql_common`'s tests of whole files check, by value.

use binlog::consts::{BinlogVersion, EventFlags, EventType, StatusVarKey};
use binlog::events::{
    BinlogEventHeader, EventData, FormatDescriptionEvent, GnoInterval, GtidEvent,
    PreviousGtidsEvent, PreviousGtidsSid, QueryEvent, RotateEvent, StatusVarVal, Tag, XidEvent,
};
use binlog::raw::MySerialize;
use binlog::{BinlogFile, BinlogFileHeader, BinlogSlice, Crc32};

const VERSION: BinlogVersion = BinlogVersion::Version4;
const STARTED: u32 = 1_253_783_036;
const NO_FLAGS: EventFlags = EventFlags::empty();
const NO_SCHEMA: EventFlags = EventFlags::LOG_EVENT_SUPPRESS_USE_F;

/// The post-header lengths that a server 5.0 states.
const LENGTHS_5_0: [u8; 18] = [56, 13, 0, 8, 0, 18, 0, 4, 4, 4, 4, 18, 0, 0, 75, 0, 4, 26];

/// The status variables of each statement: flags, the SQL mode, the catalog and the character sets.
const STATUS_VARS: &[u8] = b"\x00\0\x40\0\0\x01\0\0\0\0\0\0\0\0\x06\x03std\x04\x08\0\x08\0\x08\0";

/// A statement of the log: its flags, its schema and its text, and the size of its event.
type Statement = (EventFlags, &'static str, &'static str, u32);

const STATEMENTS: [Statement; 17] = [
    (
        NO_FLAGS,
        "test",
        "create table t1(a int) engine= innodb",
        100,
    ),
    (
        NO_FLAGS,
        "mysql",
        "create table t2(a int) engine= innodb",
        101,
    ),
    (NO_SCHEMA, "mysql", "BEGIN", 69),
    (NO_FLAGS, "test", "insert into t1 (a) values (1)", 92),
    (NO_FLAGS, "mysql", "insert into t2 (a) values (1)", 93),
    (
        NO_FLAGS,
        "test",
        "create table t3(a int) engine= innodb",
        100,
    ),
    (
        NO_FLAGS,
        "mysql",
        "create table t4(a int) engine= myisam",
        101,
    ),
    (NO_SCHEMA, "mysql", "BEGIN", 69),
    (NO_FLAGS, "test", "insert into t3 (a) values (2)", 92),
    (NO_FLAGS, "mysql", "insert into t4 (a) values (2)", 93),
    (NO_SCHEMA, "mysql", "ROLLBACK", 72),
    (NO_FLAGS, "test", "create table t5(a int) engine= NDB", 97),
    (NO_FLAGS, "mysql", "create table t6(a int) engine= NDB", 98),
    (NO_SCHEMA, "mysql", "BEGIN", 69),
    (NO_FLAGS, "test", "insert into t5 (a) values (3)", 92),
    (NO_FLAGS, "mysql", "insert into t6 (a) values (3)", 93),
    (NO_SCHEMA, "mysql", "COMMIT", 70),
];

/// The place of the commit of the first transaction among the statements.
const COMMITTED: usize = 5;

/// Where each event of the log ends.
const ENDS: [u32; 20] = [
    98, 198, 299, 368, 460, 553, 580, 680, 781, 850, 942, 1035, 1107, 1204, 1302, 1371, 1463, 1556,
    1626, 1670,
];

/// A log that grows, its bytes and the header of each of its events.
struct Log {
    bytes: Vec<u8>,
    headers: Vec<BinlogEventHeader>,
}

impl Log {
    fn new() -> Self {
        Log {
            bytes: BinlogFileHeader::VALUE.to_vec(),
            headers: Vec::new(),
        }
    }

    /// Appends an event of server 1.
    fn event(&mut self, kind: EventType, flags: EventFlags, body: &impl MySerialize) {
        let mut data = Vec::new();
        body.serialize(&mut data).unwrap();
        let timestamp = STARTED + u32::from(kind != EventType::FORMAT_DESCRIPTION_EVENT);
        let size = (19 + data.len()) as u32;
        let end = self.bytes.len() as u32 + size;
        let header = BinlogEventHeader::new(timestamp, kind, 1, size, end, flags);
        header.serialize(&mut self.bytes).unwrap();
        self.bytes.extend(data);
        self.headers.push(header);
    }
}

fn query((_, schema, text, _): Statement) -> QueryEvent<'static> {
    QueryEvent::new(STATUS_VARS, schema.as_bytes()).with_query(text.as_bytes())
}

fn description() -> FormatDescriptionEvent<'static> {
    FormatDescriptionEvent::new(VERSION)
        .with_server_version(&b"5.0.86-debug-log"[..])
        .with_create_timestamp(STARTED)
        .with_event_type_header_lengths(&LENGTHS_5_0[..])
}

/// The log of a server 5.0 that the tests of `mysql_common` read: three pairs of tables in different engines, and a row
/// in each.
fn server_log() -> Log {
    let mut log = Log::new();
    log.event(
        EventType::FORMAT_DESCRIPTION_EVENT,
        NO_FLAGS,
        &description(),
    );
    for (place, statement) in STATEMENTS.into_iter().enumerate() {
        if place == COMMITTED {
            log.event(EventType::XID_EVENT, NO_FLAGS, &XidEvent { xid: 11 });
        }
        log.event(
            EventType::QUERY_EVENT,
            statement.0,
            &query(statement).with_thread_id(1),
        );
    }
    let next = RotateEvent::new(4, &b"master-bin.000002"[..]);
    log.event(EventType::ROTATE_EVENT, NO_FLAGS, &next);
    log
}

/// A log of one event under the format description of a server 8.0.
fn log_of(kind: EventType, body: &impl MySerialize) -> Vec<u8> {
    let mut log = Log::new();
    let description = FormatDescriptionEvent::new(VERSION).with_server_version(&b"8.0.44"[..]);
    log.event(
        EventType::FORMAT_DESCRIPTION_EVENT,
        NO_FLAGS,
        &description.with_event_type_header_lengths(&[][..]),
    );
    log.event(kind, NO_FLAGS, body);
    log.bytes
}

#[test]
fn the_file_header_is_written_as_it_was_read() {
    let bytes = server_log().bytes;
    let header = BinlogFileHeader::read(&mut &bytes[..]).unwrap();
    let mut written = Vec::new();
    header.write(VERSION, &mut written).unwrap();
    assert_eq!(written, bytes[..BinlogFileHeader::LEN]);
}

#[test]
fn events_have_the_sizes_and_places_that_the_server_gave_them() {
    let log = server_log();
    let ends: Vec<_> = log.headers.iter().map(BinlogEventHeader::log_pos).collect();
    assert_eq!(ends, ENDS);
    let sizes = log
        .headers
        .iter()
        .filter(|header| header.event_type() == Ok(EventType::QUERY_EVENT));
    assert!(
        sizes
            .map(BinlogEventHeader::event_size)
            .eq(STATEMENTS.map(|statement| statement.3))
    );
}

#[test]
fn a_file_gives_each_event_with_its_header_and_data() {
    let log = server_log();
    let file = BinlogFile::new(VERSION, &log.bytes[..]).unwrap();
    let events: Vec<_> = file.items().collect::<Result<_, _>>().unwrap();
    assert_eq!(events.len(), 20);
    let mut start = BinlogFileHeader::LEN;
    for (event, header) in events.iter().zip(&log.headers) {
        let end = header.log_pos() as usize;
        assert_eq!(event.header(), *header);
        assert_eq!(
            event.data(),
            &log.bytes[start + BinlogEventHeader::LEN..end]
        );
        start = end;
    }
}

#[test]
fn the_statements_of_a_file_are_those_that_were_logged() {
    let log = server_log();
    let file = BinlogFile::new(VERSION, &log.bytes[..]).unwrap();
    let mut statements = STATEMENTS.into_iter();
    for item in file.items() {
        let event = item.unwrap();
        if let Some(EventData::QueryEvent(query)) = event.read_data().unwrap() {
            let (flags, schema, text, _) = statements.next().unwrap();
            assert_eq!(event.header().flags(), flags);
            assert_eq!(
                (query.schema().as_ref(), query.query().as_ref()),
                (schema, text)
            );
            let catalog = query
                .status_vars()
                .get_status_var(StatusVarKey::CatalogNz)
                .unwrap();
            let Ok(StatusVarVal::CatalogNz(name)) = catalog.get_value() else {
                panic!("no catalog in {query:?}");
            };
            assert_eq!(name.as_str(), "std");
        }
    }
    assert!(statements.next().is_none());
}

#[test]
fn each_event_and_each_body_is_written_as_it_was_read() {
    let log = server_log();
    let crc = Crc32::new();
    let mut written = BinlogFileHeader::VALUE.to_vec();
    for item in BinlogFile::new(VERSION, &log.bytes[..]).unwrap().items() {
        let event = item.unwrap();
        event
            .write(VERSION, |bytes| crc.checksum(bytes), &mut written)
            .unwrap();
        let mut body = Vec::new();
        event
            .read_data()
            .unwrap()
            .unwrap()
            .serialize(&mut body)
            .unwrap();
        assert_eq!(body, event.data());
    }
    assert_eq!(written, log.bytes);
}

#[test]
fn a_gtid_with_a_tag_is_read_from_a_log() {
    let sid = 0x55778904_0299_11f1_b1b8_4ef0c4956feb_u128.to_be_bytes();
    let tag = Tag::new("mytag").unwrap();
    let bytes = log_of(
        EventType::GTID_TAGGED_LOG_EVENT,
        &GtidEvent::new_tagged(sid, tag, 3),
    );
    let event = BinlogSlice::new(VERSION, &bytes)
        .unwrap()
        .nth(1)
        .unwrap()
        .unwrap();
    assert_eq!(
        event.header().event_type(),
        Ok(EventType::GTID_TAGGED_LOG_EVENT)
    );
    let Ok(Some(EventData::GtidEvent(gtid))) = event.read_data() else {
        panic!("not a GTID: {event:?}");
    };
    assert!(gtid.is_tagged());
    assert_eq!(
        (gtid.sid(), gtid.tag().map(Tag::as_str), gtid.gno()),
        (sid, Some("mytag"), 3)
    );
}

/// The previous GTIDs of a log that has them alone.
fn previous(sids: Vec<PreviousGtidsSid<'_>>) -> PreviousGtidsEvent<'static> {
    let bytes = log_of(
        EventType::PREVIOUS_GTIDS_EVENT,
        &PreviousGtidsEvent::new(sids),
    );
    let event = BinlogSlice::new(VERSION, &bytes)
        .unwrap()
        .nth(1)
        .unwrap()
        .unwrap();
    event
        .read_event::<PreviousGtidsEvent>()
        .unwrap()
        .into_owned()
}

#[test]
fn previous_gtids_with_tags_are_read_from_a_log() {
    let sid = 0x55778904_0299_11f1_b1b8_4ef0c4956feb_u128.to_be_bytes();
    let tag = Tag::new("mytag").unwrap();
    let event = previous(vec![
        PreviousGtidsSid::new(sid, None, vec![GnoInterval::new(1, 14)]),
        PreviousGtidsSid::new(sid, Some(tag), vec![GnoInterval::new(1, 3)]),
    ]);
    let [untagged, tagged] = event.sids() else {
        panic!("not two: {event:?}");
    };
    assert_eq!((untagged.uuid(), untagged.tag()), (sid, None));
    assert_eq!(untagged.intervals(), [GnoInterval::new(1, 14)]);
    assert_eq!(
        (tagged.uuid(), tagged.tag().map(Tag::as_str)),
        (sid, Some("mytag"))
    );
    assert_eq!(tagged.intervals(), [GnoInterval::new(1, 3)]);
}

#[test]
fn previous_gtids_without_tags_are_read_from_a_log() {
    let sid = 0xb9b88c66_0755_11f1_9899_4a9da94c4d71_u128.to_be_bytes();
    let event = previous(vec![PreviousGtidsSid::new(
        sid,
        None,
        vec![GnoInterval::new(1, 3)],
    )]);
    let [untagged] = event.sids() else {
        panic!("not one: {event:?}");
    };
    assert_eq!((untagged.uuid(), untagged.tag()), (sid, None));
    assert_eq!(untagged.intervals(), [GnoInterval::new(1, 3)]);
}
