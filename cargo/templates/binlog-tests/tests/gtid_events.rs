//! The builders of GTIDs and of previous GTIDs, what is written of them, and what can't be.

use binlog::consts::{BinlogVersion, EventType, GtidFlags};
use binlog::events::{AnonymousGtidEvent, BinlogEventHeader, GnoInterval, GtidEvent};
use binlog::events::{PreviousGtidsEvent, PreviousGtidsSid, Tag};
use binlog::mariadb::{MariaGtidEvent, is_maria_version};
use binlog::raw::MySerialize;
use binlog::{BinlogCtx, BinlogEvent, BinlogStruct, DescriptionRef, Error, Field, read_body};

const VERSION: BinlogVersion = BinlogVersion::Version4;

/// A body without a tag and without a clock code: flags 0, a SID of zeros, and GNO 1.
const HEAD: &[u8] = b"\0\0\0\0\0\0\0\0\0\0\0\0\0\0\0\0\0\x01\0\0\0\0\0\0\0";

/// A SID.
const UUID: [u8; 16] = [0xab; 16];

/// What follows the payload size in each body with a tag: the last field that may not be ignored, and the flags; and the SID.
const UUID_FIELD: &[u8] =
    b"\x02\xad\x02\xad\x02\xad\x02\xad\x02\xad\x02\xad\x02\xad\x02\xad\x02\xad\x02\xad\x02\xad\x02\xad\x02\xad\x02\xad\x02\xad\x02\xad\x02";

/// The greatest number that is written.
const MOST: u64 = (1 << 63) - 1;

fn read_typed<'a, T: BinlogEvent<'a>>(number: u8, body: &'a [u8]) -> Result<T, Error> {
    let size = BinlogEventHeader::LEN + body.len();
    read_body(
        BinlogCtx::new(size, DescriptionRef::new(VERSION), number),
        body,
    )
}

fn read<'a, T: BinlogEvent<'a>>(body: &'a [u8]) -> Result<T, Error> {
    read_typed(u8::from(T::EVENT_TYPE), body)
}

/// What is written for an event, as many bytes as its length says.
fn written<'a>(event: &(impl BinlogStruct<'a> + MySerialize)) -> Vec<u8> {
    let mut bytes = Vec::new();
    event.serialize(&mut bytes).unwrap();
    assert_eq!(event.len(VERSION), bytes.len());
    bytes
}

/// The field because of which an event can't be written; the buffer is unchanged.
fn unwritable(event: &impl MySerialize) -> Field {
    let mut bytes = b"x".to_vec();
    match event.serialize(&mut bytes) {
        Err(Error::Unwritable(field)) => {
            assert_eq!(bytes, b"x");
            field
        }
        answer => panic!("{answer:?}"),
    }
}

fn new_gtid() -> GtidEvent {
    GtidEvent::new([0; 16], 1)
}

/// The GTID with this tag and GNO 1.
fn tagged(tag: &'static [u8]) -> GtidEvent {
    GtidEvent::new_tagged(UUID, Tag::from_bytes(tag).unwrap(), 1)
}

#[test]
fn a_new_gtid_is_written_whole() {
    let event = new_gtid();
    assert_eq!(event.event_type(), EventType::GTID_EVENT);
    let clock_and_zeros = [b"\x02", &[0; 28][..]].concat();
    assert_eq!(written(&event), [HEAD, &clock_and_zeros].concat());
}

#[test]
fn a_gtid_has_the_parts_that_it_was_given() {
    let event = new_gtid()
        .with_flags(GtidFlags::MAY_HAVE_SBR)
        .with_sid([7; 16])
        .with_gno(2)
        .with_last_committed(3)
        .with_sequence_number(4)
        .with_immediate_commit_timestamp(5)
        .with_original_commit_timestamp(6)
        .with_tx_length(300)
        .with_original_server_version(80_035)
        .with_immediate_server_version(80_036)
        .with_lc_typecode();
    assert_eq!(event.flags_raw(), 1);
    assert_eq!(event.flags(), GtidFlags::MAY_HAVE_SBR);
    assert_eq!((event.sid(), event.gno()), ([7; 16], 2));
    assert_eq!((event.last_committed(), event.sequence_number()), (3, 4));
    assert_eq!(event.original_commit_timestamp(), 6);
    assert_eq!(event.lc_typecode(), Some(2));
    let anonymous = AnonymousGtidEvent(event);
    assert_eq!(read(&written(&anonymous)), Ok(anonymous));
}

// Bit 55 of the immediate timestamp and bit 31 of the immediate version state that an original one follows.
#[test]
fn the_latest_times_and_versions_are_written() {
    let event = new_gtid()
        .with_immediate_commit_timestamp((1 << 55) - 1)
        .with_original_commit_timestamp((1 << 56) - 1)
        .with_immediate_server_version((1 << 31) - 1)
        .with_original_server_version(u32::MAX);
    let clock = [b"\x02", &[0; 16][..]].concat();
    let times_and_versions = [&[0xff; 14][..], &[0], &[0xff; 8]].concat();
    assert_eq!(
        written(&event),
        [HEAD, &clock, &times_and_versions].concat()
    );
}

#[test]
fn the_first_time_or_version_that_does_not_fit_is_named() {
    for (immediate, original, version, field) in [
        (1 << 55, 1 << 56, 1 << 31, Field::ImmediateCommitTimestamp),
        (1 << 55, 1 << 55, 0, Field::ImmediateCommitTimestamp),
        (0, 1 << 56, 1 << 31, Field::OriginalCommitTimestamp),
        (0, u64::MAX, 0, Field::OriginalCommitTimestamp),
        (0, 0, 1 << 31, Field::ImmediateServerVersion),
    ] {
        let event = new_gtid()
            .with_immediate_commit_timestamp(immediate)
            .with_original_commit_timestamp(original)
            .with_immediate_server_version(version);
        assert_eq!(unwritable(&event), field);
        assert_eq!(unwritable(&AnonymousGtidEvent(event)), field);
    }
}

#[test]
fn times_without_a_clock_are_not_written() {
    let event: GtidEvent = read(HEAD).unwrap();
    let late = event.with_immediate_commit_timestamp(1 << 55);
    assert_eq!(written(&late), HEAD);
}

#[test]
fn other_types_hold_no_gtid() {
    for number in [0, 16, 32, 35, 41, 43, 255] {
        let refusal = Error::WrongEventType(number);
        assert_eq!(read_typed::<GtidEvent>(number, HEAD), Err(refusal.clone()));
        assert_eq!(read_typed::<AnonymousGtidEvent>(number, HEAD), Err(refusal));
    }
}

#[test]
fn a_gtid_with_a_tag_is_written() {
    let event = tagged(b"backup")
        .with_immediate_commit_timestamp(2000)
        .with_original_commit_timestamp(1000)
        .with_immediate_server_version(90200)
        .with_original_server_version(90100);
    assert_eq!(event.event_type(), EventType::GTID_TAGGED_LOG_EVENT);
    let others =
        b"\x04\x04\x06\x0cbackup\x08\0\x0a\0\x0c\x41\x1f\x0e\xa1\x0f\x10\0\x12\xc3\x02\x0b\x14\xa3\xff\x0a";
    let body = [b"\x02\x88\0\0\0", UUID_FIELD, others].concat();
    assert_eq!(written(&event), body);
    assert_eq!(read_typed(42, &body), Ok(event));
}

/// An event whose body has 127 bytes with the sequence number 2^34, and 129 bytes with 2^41.
fn long_event(sequence_number: u64) -> GtidEvent {
    tagged(b"abcdefghijklmnopqrstuvwxyz012345")
        .with_last_committed(MOST)
        .with_sequence_number(sequence_number)
        .with_immediate_commit_timestamp(u64::MAX)
        .with_original_commit_timestamp(0)
        .with_tx_length(u64::MAX)
        .with_commit_group_ticket(u64::MAX)
}

#[test]
fn the_payload_size_counts_itself() {
    let others = b"\x04\x04\x06\x40abcdefghijklmnopqrstuvwxyz012345\x08\xff\xfe\xff\xff\xff\xff\xff\xff\xff\x0a\x1f\0\0\0\0\x02\x0c\xff\xff\xff\xff\xff\xff\xff\xff\xff\x0e\0\x10\xff\xff\xff\xff\xff\xff\xff\xff\xff\x12\xfb\x11\x7a\x16\xff\xff\xff\xff\xff\xff\xff\xff\xff";
    let body = [b"\x02\xfe\0\0\0", UUID_FIELD, others].concat();
    assert_eq!(body.len(), 127);
    assert_eq!(written(&long_event(1 << 34)), body);
}

#[test]
fn the_payload_size_may_take_two_bytes() {
    let body = written(&long_event(1 << 41));
    assert_eq!(body.len(), 129);
    assert!(body.starts_with(b"\x02\x05\x02\0"));
}

#[test]
fn the_first_number_that_does_not_fit_is_named() {
    for (gno, last_committed, sequence_number, field) in [
        (1 << 63, 1 << 63, 1 << 63, Field::Gno),
        (1, 1 << 63, 1 << 63, Field::LastCommitted),
        (1, 1, 1 << 63, Field::SequenceNumber),
    ] {
        let event = tagged(b"test")
            .with_gno(gno)
            .with_last_committed(last_committed)
            .with_sequence_number(sequence_number);
        assert_eq!(unwritable(&event), field);
        assert_eq!(unwritable(&AnonymousGtidEvent(event)), Field::Tag);
    }
}

#[test]
fn the_greatest_numbers_are_written() {
    let event = tagged(b"test")
        .with_gno(MOST)
        .with_last_committed(MOST)
        .with_sequence_number(MOST);
    let others = b"\x04\xff\xfe\xff\xff\xff\xff\xff\xff\xff\x06\x08test\x08\xff\xfe\xff\xff\xff\xff\xff\xff\xff\x0a\xff\xfe\xff\xff\xff\xff\xff\xff\xff\x0c\0\x10\0\x12\xfb\x11\x7a";
    let body = [b"\x02\xa4\0\0\0", UUID_FIELD, others].concat();
    assert_eq!(body.len(), 82);
    assert_eq!(written(&event), body);
}

/// Previous GTIDs of one source: a tag or none, and intervals.
fn previous(
    tag: Option<&'static [u8]>,
    intervals: Vec<GnoInterval>,
) -> PreviousGtidsEvent<'static> {
    let tag = tag.map(|tag| Tag::from_bytes(tag).unwrap());
    PreviousGtidsEvent::new(vec![PreviousGtidsSid::new(UUID, tag, intervals)])
}

/// The count of intervals, and the GNOs 1 to 5.
const ONE_TO_FIVE: &[u8] = b"\x01\0\0\0\0\0\0\0\x01\0\0\0\0\0\0\0\x06\0\0\0\0\0\0\0";

#[test]
fn previous_gtids_are_written_and_read() {
    let one_to_five = || vec![GnoInterval::new(1, 6)];
    for (event, body) in [
        (PreviousGtidsEvent::new(Vec::new()), vec![0; 8]),
        (
            previous(None, one_to_five()),
            [b"\x01\0\0\0\0\0\0\0", &UUID[..], ONE_TO_FIVE].concat(),
        ),
        (
            previous(Some(b"test"), one_to_five()),
            [
                b"\x01\x01\0\0\0\0\0\x01",
                &UUID[..],
                b"\x08test",
                ONE_TO_FIVE,
            ]
            .concat(),
        ),
    ] {
        assert_eq!(written(&event), body);
        assert_eq!(read(&body), Ok(event));
    }
}

// Eight bytes for the count of entries, sixteen for the SID, eight for the count of intervals, and sixteen for each interval.
#[test]
fn more_than_64_kib_of_intervals_are_written_and_read() {
    let intervals = (0..5_000).map(|number| GnoInterval::new(2 * number, 2 * number + 1));
    let event = previous(None, intervals.collect());
    let body = written(&event);
    assert_eq!(body.len(), 80_032);
    assert_eq!(read(&body), Ok(event));
}

#[test]
fn a_new_gtid_of_mariadb_has_19_bytes() {
    let body = b"\x01\0\0\0\0\0\0\0\x03\0\0\0\0\0\0\0\0\0\0";
    assert_eq!(written(&MariaGtidEvent::new(3, 1)), body);
}

#[test]
fn a_version_says_which_server() {
    for (version, is_maria) in [
        (&b"10.11.19-MariaDB-0+deb12u1-log\0\0\0"[..], true),
        (b"8.0.36-log\0\0", false),
        (b"8.0.36\0-MariaDB", false),
        (b"10.11.19-mariadb", false),
        (b"5.1.23-maria-beta", true),
        (b"5.1.23-maria", false),
        (b"MariaDB", true),
    ] {
        assert_eq!(is_maria_version(version), is_maria);
    }
}
