//! The texts of events' data, of which some aren't UTF-8.

use binlog::consts::BinlogVersion;
use binlog::events::{BinlogEventHeader, EventData};
use binlog::{BinlogCtx, DescriptionRef};

/// The texts of an event: its schema and its statement, the names of its database and its table, or its only text.
fn texts(event: &EventData<'_>) -> Vec<String> {
    match event {
        EventData::QueryEvent(event) => vec![event.schema().into(), event.query().into()],
        EventData::ExecuteLoadQueryEvent(event) => vec![event.schema().into(), event.query().into()],
        EventData::TableMapEvent(event) => vec![event.database_name().into(), event.table_name().into()],
        EventData::FormatDescriptionEvent(event) => vec![event.server_version().into()],
        EventData::IncidentEvent(event) => vec![event.message().into()],
        EventData::RotateEvent(event) => vec![event.name().into()],
        EventData::RowsQueryEvent(event) => vec![event.query().into()],
        EventData::UserVarEvent(event) => vec![event.name().into()],
        _ => vec![],
    }
}

/// The number of a type, a body, and its texts.
const TEXTS: &[(u8, &[u8], &[&str])] = &[
    (2, b"\x01\0\0\0\x02\0\0\0\x01\x03\0\0\0\xff\0\xfe", &["\u{fffd}", "\u{fffd}"]),
    (4, b"\x04\0\0\0\0\0\0\0a\xff", &["a\u{fffd}"]),
    (14, b"\x01\0\0\0\xff\x01", &["\u{fffd}"]),
    (
        15,
        b"\x04\x005.0.86-debug-log\0\0\0\0\0\0\0\0\0\0\0\0\0\0\0\0\0\0\0\0\0\0\0\0\0\0\0\0\0\0\0\0\0\0\
        \xfc\x35\xbb\x4a\x13\x38\x0d\0\x08\0\x12\0\x04\x04\x04\x04\x12\0\0\x4b\0\x04\x1a",
        &["5.0.86-debug-log\0\0\0\0\0\0\0\0\0\0\0\0\0\0\0\0\0\0\0\0\0\0\0\0\0\0\0\0\0\0\0\0\0\0"],
    ),
    (
        18,
        b"\x01\0\0\0\0\0\0\0\x01\0\0\x03\0\x02\0\0\0\x03\0\0\0\x04\0\0\0\x02\x07\x08\0d\0LOAD",
        &["d", "LOAD"],
    ),
    (19, b"\x05\0\0\0\0\0\x01\0\x01d\0\x01t\0\x01\x03\0\x01", &["d", "t"]),
    (
        19,
        b"\xff\xff\xff\xff\xff\xff\0\0\x02\xc3\xa4\xff\x01\xff\xfe\x09\
        \x01\x02\x03\x0f\x05\x06\x07\x08\x09\x02\x40\0\x81\xff\x01\x01\x80",
        &["ä", "\u{fffd}"],
    ),
    (26, b"\x01\0\x04lost", &["lost"]),
    (29, b"\0insert into t1 values (1)", &["insert into t1 values (1)"]),
];

#[test]
fn what_is_not_utf_8_is_replaced() {
    for &(number, body, wanted) in TEXTS {
        let fde = DescriptionRef::new(BinlogVersion::Version4);
        let ctx = BinlogCtx::new(BinlogEventHeader::LEN + body.len(), fde, number);
        let data = EventData::read(ctx, body).unwrap().unwrap();
        assert_eq!(texts(&data), wanted);
    }
}
