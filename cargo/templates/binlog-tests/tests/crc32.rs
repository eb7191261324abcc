//! The calls that compute CRC-32 without a function of the caller's: by tables, or, with the feature `crc32fast`, by the
//! processor's instructions. Both give the same checksums.

use binlog::consts::{BinlogChecksumAlg, BinlogVersion, EventFlags, EventType};
use binlog::events::{
    BinlogEventFooter, BinlogEventHeader, Event, FormatDescriptionEvent, RotateEvent, XidEvent,
};
use binlog::raw::MySerialize;
use binlog::{
    BinlogFile, BinlogFileHeader, BinlogSlice, Crc32, Crc32File, Crc32Slice, Error, crc32,
};

const VERSION: BinlogVersion = BinlogVersion::Version4;

/// Appends an event with a checksum of zeros.
fn append(
    log: &mut Vec<u8>,
    kind: EventType,
    flags: EventFlags,
    body: &impl MySerialize,
    end: &[u8],
) {
    let mut data = Vec::new();
    body.serialize(&mut data).unwrap();
    data.extend(end);
    let size = (BinlogEventHeader::LEN + data.len()) as u32;
    let position = log.len() as u32 + size;
    let header = BinlogEventHeader::new(1, kind, 1, size, position, flags);
    header.serialize(log).unwrap();
    log.extend(data);
}

/// A log whose checksums are all zeros. The file is in use.
fn log_of_zeros() -> Vec<u8> {
    let mut log = BinlogFileHeader::VALUE.to_vec();
    let description = FormatDescriptionEvent::new(VERSION).with_server_version(&b"8.0.44"[..]);
    let in_use = EventFlags::LOG_EVENT_BINLOG_IN_USE_F;
    let kind = EventType::FORMAT_DESCRIPTION_EVENT;
    append(&mut log, kind, in_use, &description, &[1, 0, 0, 0, 0]);
    let none = EventFlags::empty();
    append(
        &mut log,
        EventType::XID_EVENT,
        none,
        &XidEvent { xid: 7 },
        &[0; 4],
    );
    let next = RotateEvent::new(4, &b"binlog.000002"[..]);
    append(&mut log, EventType::ROTATE_EVENT, none, &next, &[0; 4]);
    log
}

fn events(log: &[u8]) -> Vec<Event> {
    let file = BinlogFile::new(VERSION, log).unwrap();
    file.items().collect::<Result<_, _>>().unwrap()
}

/// The same log with its right checksums.
fn log() -> Vec<u8> {
    let mut log = BinlogFileHeader::VALUE.to_vec();
    for event in events(&log_of_zeros()) {
        event.write_crc32(VERSION, &mut log).unwrap();
    }
    log
}

#[test]
fn checksums_are_those_of_the_tables() {
    assert_eq!(crc32(b""), 0);
    assert_eq!(crc32(b"123456789"), 0xcbf4_3926);
    let tables = Crc32::new();
    let bytes: Vec<u8> = (0..2_000_u32)
        .map(|place| (place * place >> 3) as u8)
        .collect();
    for start in 0..20 {
        for end in (start..bytes.len()).step_by(7) {
            assert_eq!(
                crc32(&bytes[start..end]),
                tables.checksum(&bytes[start..end])
            );
        }
    }
}

#[test]
fn events_are_written_as_with_a_function() {
    let tables = Crc32::new();
    let mut written = BinlogFileHeader::VALUE.to_vec();
    for item in BinlogSlice::new(VERSION, &log_of_zeros()).unwrap() {
        let event = item.unwrap();
        event
            .write(VERSION, |bytes| tables.checksum(bytes), &mut written)
            .unwrap();
    }
    assert_eq!(written, log());
    let mut again = BinlogFileHeader::VALUE.to_vec();
    for item in BinlogSlice::new(VERSION, &log()).unwrap() {
        item.unwrap().write_crc32(VERSION, &mut again).unwrap();
    }
    assert_eq!(again, written);
}

#[test]
fn an_event_has_the_checksum_that_is_computed() {
    for event in events(&log()) {
        let stored = event.checksum().map(u32::from_le_bytes);
        assert_eq!(event.calc_crc32().ok(), stored);
        assert_eq!(event.as_ref().calc_crc32().ok(), stored);
    }
    let mut off = log();
    let algorithm = off.len() - 5 - (19 + 8 + 4) - (19 + 8 + 13 + 4);
    assert_eq!(off[algorithm], 1);
    off[algorithm] = u8::from(BinlogChecksumAlg::BINLOG_CHECKSUM_ALG_OFF);
    let description = BinlogSlice::new(VERSION, &off)
        .unwrap()
        .next()
        .unwrap()
        .unwrap();
    let footer: BinlogEventFooter = description.footer();
    assert_eq!(
        footer.get_checksum_alg(),
        Ok(Some(BinlogChecksumAlg::BINLOG_CHECKSUM_ALG_OFF))
    );
    let of_bytes = |bytes: &[u8]| crc32(bytes);
    let off_alg = BinlogChecksumAlg::BINLOG_CHECKSUM_ALG_OFF;
    assert_eq!(
        description.calc_crc32(),
        description.calc_checksum(off_alg, of_bytes)
    );
}

#[test]
fn right_checksums_are_verified() {
    let log = log();
    let file = Crc32File::verified(VERSION, &log[..]).unwrap();
    assert!(file.items().eq(events(&log).into_iter().map(Ok)));
    let mut bytes = log.clone();
    assert!(
        Crc32Slice::verified(VERSION, &mut bytes)
            .unwrap()
            .all(|item| item.is_ok())
    );
    assert_eq!(bytes, log);
}

#[test]
fn wrong_checksums_are_found() {
    let log = log_of_zeros();
    let mut file = Crc32File::verified(VERSION, &log[..]).unwrap();
    let refusal = file.next().unwrap().unwrap_err();
    assert!(
        matches!(refusal, Error::ChecksumMismatch { stored: 0, .. }),
        "{refusal:?}"
    );
    let mut bytes = self::log();
    let last = bytes.len() - 5;
    bytes[last] ^= 1;
    let items: Vec<_> = Crc32Slice::verified(VERSION, &mut bytes).unwrap().collect();
    assert!(items[0].is_ok() && items[1].is_ok());
    assert!(matches!(items[2], Err(Error::ChecksumMismatch { .. })));
}

// The check value of CRC-32 in catalogues of CRCs. `tests/written_back.py` has the checksums of zlib's `crc32`.
#[test]
fn the_check_value() {
    let crc32 = Crc32::new();
    assert_eq!(crc32.checksum(b"123456789"), 0xcbf4_3926);
    let parts: [&[u8]; 4] = [b"12345", b"", b"6", b"789"];
    assert_eq!(crc32.checksum_of_parts(&parts), 0xcbf4_3926);
}
