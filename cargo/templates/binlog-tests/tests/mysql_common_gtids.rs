//! What `mysql_common`'s tests of GTID events check, by value.

use std::io::ErrorKind;

use binlog::consts::{BinlogVersion, GtidFlags};
use binlog::events::{GtidEvent, Tag, field_id};
use binlog::misc::{
    read_varlen_int, read_varlen_uint, varlen_uint_size, write_varlen_int, write_varlen_uint,
};
use binlog::raw::{MySerialize, ParseBuf};
use binlog::{BinlogCtx, DescriptionRef, Error, Invalid, read_body};

/// The raw event type of a GTID with a tag.
const TAGGED: u8 = 42;

/// The numbers at both ends of what each number of bytes holds, and some between.
const UNSIGNED: [u64; 24] = [
    0,
    1,
    63,
    64,
    127,
    128,
    255,
    256,
    (1 << 14) - 1,
    1 << 14,
    (1 << 21) - 1,
    1 << 21,
    (1 << 28) - 1,
    1 << 28,
    (1 << 35) - 1,
    1 << 35,
    (1 << 42) - 1,
    1 << 42,
    (1 << 49) - 1,
    1 << 49,
    (1 << 56) - 1,
    1 << 56,
    u64::MAX / 2,
    u64::MAX,
];

const SIGNED: [i64; 11] = [
    0,
    1,
    -1,
    42,
    -42,
    127,
    -128,
    i64::MAX / 2,
    i64::MIN / 2,
    i64::MAX,
    i64::MIN,
];

fn unsigned(number: u64) -> Vec<u8> {
    let mut bytes = Vec::new();
    write_varlen_uint(&mut bytes, number).unwrap();
    bytes
}

fn signed(number: i64) -> Vec<u8> {
    let mut bytes = Vec::new();
    write_varlen_int(&mut bytes, number).unwrap();
    bytes
}

fn tag(text: &str) -> Tag<'_> {
    Tag::new(text).unwrap()
}

fn read(body: &[u8]) -> Result<GtidEvent, Error> {
    let size = 19 + body.len();
    read_body(
        BinlogCtx::new(size, DescriptionRef::new(BinlogVersion::Version4), TAGGED),
        body,
    )
}

/// The event that is read from what is written of this one.
fn again(event: &GtidEvent) -> GtidEvent {
    let mut body = Vec::new();
    event.serialize(&mut body).unwrap();
    read(&body).unwrap()
}

/// The body of an event with these fields.
fn body(last_non_ignorable: u64, fields: &[(u64, Vec<u8>)]) -> Vec<u8> {
    let fields: Vec<u8> = fields
        .iter()
        .flat_map(|(id, value)| [unsigned(*id), value.clone()].concat())
        .collect();
    let others = 1 + varlen_uint_size(last_non_ignorable) + fields.len();
    let size = (1..)
        .find(|own| varlen_uint_size((others + own) as u64) == *own)
        .unwrap()
        + others;
    let version = vec![GtidEvent::TAGGED_SERIALIZATION_VERSION_V2];
    [
        version,
        unsigned(size as u64),
        unsigned(last_non_ignorable),
        fields,
    ]
    .concat()
}

/// The fields of an event that is whole, with other values for some of them; None leaves a field out.
fn fields_with(others: &[(u64, Option<Vec<u8>>)]) -> Vec<(u64, Vec<u8>)> {
    let usual = [
        (field_id::GTID_FLAGS, unsigned(0)),
        (field_id::SID, vec![0; 16]),
        (field_id::GNO, signed(1)),
        (field_id::TAG, [unsigned(4), b"test".to_vec()].concat()),
        (field_id::LAST_COMMITTED, signed(0)),
        (field_id::SEQUENCE_NUMBER, signed(0)),
        (field_id::IMMEDIATE_COMMIT_TIMESTAMP, unsigned(0)),
        (field_id::TRANSACTION_LENGTH, unsigned(0)),
        (field_id::IMMEDIATE_SERVER_VERSION, unsigned(0)),
    ];
    let value = |id, value| match others.iter().find(|(other, _)| *other == id) {
        Some((_, other)) => other.clone(),
        None => Some(value),
    };
    usual
        .into_iter()
        .filter_map(|(id, usual)| Some((id, value(id, usual)?)))
        .collect()
}

/// The refusal of an event with these values, which reads if its values are the usual ones.
fn refusal_with(others: &[(u64, Option<Vec<u8>>)]) -> Error {
    let last = field_id::IMMEDIATE_SERVER_VERSION;
    assert!(read(&body(last, &fields_with(&[]))).is_ok());
    read(&body(last, &fields_with(others))).unwrap_err()
}

fn kind(error: Error) -> ErrorKind {
    std::io::Error::from(error).kind()
}

#[test]
fn unsigned_numbers_are_read_as_they_were_written() {
    for number in UNSIGNED {
        let bytes = unsigned(number);
        let mut rest = ParseBuf(&bytes);
        assert_eq!(read_varlen_uint(&mut rest), Ok(number));
        assert!(rest.is_empty(), "{number}");
    }
}

#[test]
fn an_unsigned_number_takes_as_many_bytes_as_it_needs() {
    let lengths = [
        (0, 1),
        (127, 1),
        (128, 2),
        ((1 << 14) - 1, 2),
        (u64::MAX, 9),
    ];
    for (number, len) in lengths {
        assert_eq!(unsigned(number).len(), len, "{number}");
        assert_eq!(varlen_uint_size(number), len, "{number}");
    }
}

#[test]
fn signed_numbers_are_read_as_they_were_written() {
    for number in SIGNED {
        let bytes = signed(number);
        let mut rest = ParseBuf(&bytes);
        assert_eq!(read_varlen_int(&mut rest), Ok(number));
        assert!(rest.is_empty(), "{number}");
    }
}

#[test]
fn a_new_event_with_a_tag_has_its_gtid() {
    let event = GtidEvent::new_tagged([1; 16], tag("domain_1").into_owned(), 42);
    assert!(event.is_tagged());
    assert_eq!(event.tag().map(Tag::as_str), Some("domain_1"));
    assert_eq!((event.sid(), event.gno()), ([1; 16], 42));
    assert_eq!((event.flags_raw(), event.flags()), (0, GtidFlags::empty()));
}

#[test]
fn a_new_event_without_a_tag_has_its_gtid() {
    let event = GtidEvent::new([1; 16], 42);
    assert!(!event.is_tagged());
    assert_eq!(event.tag(), None);
    assert_eq!((event.sid(), event.gno()), ([1; 16], 42));
}

#[test]
fn an_event_with_a_tag_is_read_as_it_was_written() {
    let sid = 0x3e11fa47_71ca_11e1_9e33_c80aa9429562_u128.to_be_bytes();
    let event = GtidEvent::new_tagged(sid, tag("domain_1").into_owned(), 42)
        .with_last_committed(10)
        .with_sequence_number(11)
        .with_immediate_commit_timestamp(1_234_567_890)
        .with_original_commit_timestamp(1_234_567_890)
        .with_tx_length(256)
        .with_immediate_server_version(90_200)
        .with_original_server_version(90_200);
    let read = again(&event);
    assert_eq!(read, event);
    assert_eq!(read.tag().map(Tag::as_str), Some("domain_1"));
    assert_eq!((read.sid(), read.gno()), (sid, 42));
    assert_eq!((read.last_committed(), read.sequence_number()), (10, 11));
    assert_eq!(read.immediate_commit_timestamp(), 1_234_567_890);
    assert_eq!(read.original_commit_timestamp(), 1_234_567_890);
    assert_eq!(read.tx_length(), 256);
    assert_eq!(read.immediate_server_version(), 90_200);
    assert_eq!(read.original_server_version(), 90_200);
}

#[test]
fn the_times_and_versions_of_both_servers_are_kept() {
    let event = GtidEvent::new_tagged([0xab; 16], tag("backup").into_owned(), 1)
        .with_immediate_commit_timestamp(2_000)
        .with_original_commit_timestamp(1_000)
        .with_immediate_server_version(90_200)
        .with_original_server_version(90_100);
    let read = again(&event);
    assert_eq!(read.immediate_commit_timestamp(), 2_000);
    assert_eq!(read.original_commit_timestamp(), 1_000);
    assert_eq!(read.immediate_server_version(), 90_200);
    assert_eq!(read.original_server_version(), 90_100);
}

#[test]
fn an_original_time_of_zero_and_an_undefined_original_version_are_kept() {
    let event = GtidEvent::new_tagged([0xcd; 16], tag("roundtrip").into_owned(), 5);

    let of_no_time = event
        .clone()
        .with_immediate_commit_timestamp(99_999)
        .with_original_commit_timestamp(0)
        .with_immediate_server_version(90_200)
        .with_original_server_version(90_200);
    let read = again(&of_no_time);
    assert_eq!(read.immediate_commit_timestamp(), 99_999);
    assert_eq!(read.original_commit_timestamp(), 0);

    let of_no_version = event
        .with_immediate_commit_timestamp(50_000)
        .with_original_commit_timestamp(50_000)
        .with_immediate_server_version(90_200)
        .with_original_server_version(GtidEvent::UNDEFINED_SERVER_VERSION);
    let read = again(&of_no_version);
    assert_eq!(read.immediate_server_version(), 90_200);
    assert_eq!(
        read.original_server_version(),
        GtidEvent::UNDEFINED_SERVER_VERSION
    );
}

#[test]
fn the_greatest_signed_numbers_are_kept() {
    let greatest = i64::MAX.cast_unsigned();
    let event = GtidEvent::new_tagged([0xff; 16], tag("maxgno").into_owned(), greatest)
        .with_last_committed(greatest)
        .with_sequence_number(greatest);
    let read = again(&event);
    assert_eq!(read.gno(), greatest);
    assert_eq!(read.last_committed(), greatest);
    assert_eq!(read.sequence_number(), greatest);
}

#[test]
fn an_unknown_field_that_may_not_be_ignored_is_refused() {
    let fields = [(field_id::GTID_FLAGS, unsigned(0)), (99, unsigned(0))];
    let error = read(&body(100, &fields)).unwrap_err();
    assert_eq!(error, Error::InvalidData(Invalid::UnknownField(99)));
    assert_eq!(kind(error), ErrorKind::InvalidData);
}

#[test]
fn an_unknown_serialization_version_is_refused() {
    let error = read(&[vec![0], unsigned(10), unsigned(0)].concat()).unwrap_err();
    assert_eq!(error, Error::InvalidData(Invalid::SerializationVersion(0)));
    assert_eq!(kind(error), ErrorKind::InvalidData);
}

#[test]
fn negative_numbers_are_refused() {
    let fields = [
        (field_id::GNO, -1),
        (field_id::LAST_COMMITTED, -5),
        (field_id::SEQUENCE_NUMBER, -100),
    ];
    for (id, number) in fields {
        let error = refusal_with(&[(id, Some(signed(number)))]);
        assert_eq!(error, Error::InvalidData(Invalid::Negative(id)));
    }
}

#[test]
fn an_event_without_its_tag_is_refused() {
    let error = refusal_with(&[(field_id::TAG, None)]);
    assert_eq!(error, Error::InvalidData(Invalid::MissingTag));
}

#[test]
fn bodies_that_end_too_early_are_refused() {
    for body in [
        &[][..],
        &[GtidEvent::TAGGED_SERIALIZATION_VERSION_V2, 0xff, 1, 2],
    ] {
        let error = read(body).unwrap_err();
        assert_eq!(error, Error::EndOfBody);
        assert_eq!(kind(error), ErrorKind::UnexpectedEof);
    }
}
