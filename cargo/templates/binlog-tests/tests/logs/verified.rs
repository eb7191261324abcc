//! Which items a verified file gives, and a verified slice, and what is in force behind them.

use binlog::{BinlogFile, Error, VerifiedFile, VerifiedSlice};

use crate::bytes::*;
use crate::{Item, VERSION, count, low_flags, seen};

/// A description of algorithm 1, an event with a checksum and one without, and a mismatch.
const FIRST: Item = Ok((15, 57, Some([77, 0, 0, 0])));
const XID: Item = Ok((16, 8, Some([27, 0, 0, 0])));
const PLAIN: Item = Ok((16, 8, None));
const MISMATCH: Item = Err(17);

/// The ends of a description of algorithm 1 and of one of algorithm 0 whose checksums aren't right, and that of one of algorithm 7,
/// which isn't known.
const WRONG_COUNT: &[u8] = b"\x01\x4e\0\0\0";
const WRONG_OFF: &[u8] = b"\0\x4e\0\0\0";
const UNKNOWN: &[u8] = b"\x07\x4d\0\0\0";

/// A rotate whose body is too short, with the checksum 1, and with its right one, 22.
const WRONG_BODY: &[u8] = b"\0\0\0\0\x04\x01\0\0\0\x1a\0\0\0\0\0\0\0\0\0abc\x01\0\0\0";
const COUNTED_BODY: &[u8] = b"\0\0\0\0\x04\x01\0\0\0\x1a\0\0\0\0\0\0\0\0\0abc\x16\0\0\0";

/// The parts of logs behind the file header, and their items.
const LOGS: [(&[&[u8]], &[Item]); 7] = [
    (&[DESCRIPTION, COUNTED, COUNTED_XID], &[FIRST, XID]),
    // Reading goes on behind a mismatch.
    (
        &[DESCRIPTION, COUNTED, WRONG_XID, COUNTED_XID],
        &[FIRST, MISMATCH, XID],
    ),
    // A description that is refused doesn't come into force.
    (&[DESCRIPTION, WRONG_COUNT, PLAIN_XID], &[MISMATCH, PLAIN]),
    // A description is verified where its algorithm is 0, too, and where it is unknown.
    (
        &[DESCRIPTION, WRONG_OFF, DESCRIPTION, OFF],
        &[MISMATCH, FIRST],
    ),
    (
        &[DESCRIPTION, UNKNOWN, COUNTED_XID, WRONG_XID],
        &[FIRST, XID, MISMATCH],
    ),
    // A short body comes before a mismatch, and that before a bad body.
    (
        &[DESCRIPTION, COUNTED, SHORT, COUNTED_XID],
        &[FIRST, Err(4), XID],
    ),
    (
        &[DESCRIPTION, COUNTED, WRONG_BODY, COUNTED_BODY],
        &[FIRST, MISMATCH, Err(5)],
    ),
];

#[test]
fn right_checksums_are_events_and_others_mismatches() {
    for (parts, items) in LOGS {
        let mut log = [FILE_HEADER, &parts.concat()].concat();
        let mut file = VerifiedFile::new(VERSION, count, &log[..]).unwrap();
        for item in items {
            assert_eq!(file.next_ref().map(seen).as_ref(), Some(item));
        }
        assert!(file.next_ref().is_none());
        assert_eq!(file.tail_len(), Some(0));
        let mut slice = VerifiedSlice::new(VERSION, count, &mut log).unwrap();
        for item in items {
            assert_eq!(slice.next().map(seen).as_ref(), Some(item));
        }
        assert!(slice.next().is_none());
        assert_eq!(slice.tail_len(), Some(0));
    }
}

#[test]
fn the_in_use_flag_counts_as_clear() {
    let mut log = [FILE_HEADER, DESCRIPTION, b"\x01\0\0\0\0", ZERO_XID].concat();
    // Both events have the flag, and the checksum 0.
    log[FILE_HEADER.len() + 17] = 1;
    log[FILE_HEADER.len() + 81 + 17] = 1;
    let file = VerifiedFile::new(VERSION, low_flags, &log[..]).unwrap();
    assert_eq!(file.items().filter(Result::is_ok).count(), 2);
    let mut bytes = log.clone();
    let mut slice = VerifiedSlice::new(VERSION, low_flags, &mut bytes).unwrap();
    assert!(matches!(slice.next(), Some(Ok(_))));
    assert!(matches!(slice.next(), Some(Ok(_))));
    assert!(slice.next().is_none());
    assert_eq!(bytes, log);
}

#[test]
fn a_mismatch_tells_both_checksums() {
    let log = [FILE_HEADER, DESCRIPTION, COUNTED, WRONG_XID].concat();
    let mut file = VerifiedFile::new(VERSION, count, &log[..]).unwrap();
    assert!(matches!(file.next(), Some(Ok(_))));
    let mismatch = Error::ChecksumMismatch {
        stored: 0x1c,
        computed: 0x1b,
    };
    assert_eq!(file.next(), Some(Err(mismatch)));
}

/// A table map of id 5 with its right checksum, 37, and with another.
const MAP: &[u8] = b"\0\0\0\0\x13\x01\0\0\0\x29\0\0\0\0\0\0\0\0\0\
    \x05\0\0\0\0\0\x01\0\x01d\0\x01t\0\x01\x03\0\x01\x25\0\0\0";
const WRONG_MAP: &[u8] = b"\0\0\0\0\x13\x01\0\0\0\x29\0\0\0\0\0\0\0\0\0\
    \x05\0\0\0\0\0\x01\0\x01d\0\x01t\0\x01\x03\0\x01\x24\0\0\0";

/// A rotate of position 4 with its right checksum, 27, and with another.
const ROTATE: &[u8] = b"\0\0\0\0\x04\x01\0\0\0\x1f\0\0\0\0\0\0\0\0\0\x04\0\0\0\0\0\0\0\x1b\0\0\0";
const WRONG_ROTATE: &[u8] =
    b"\0\0\0\0\x04\x01\0\0\0\x1f\0\0\0\0\0\0\0\0\0\x04\0\0\0\0\0\0\0\0\0\0\0";

#[test]
fn a_mismatch_brings_nothing_into_force() {
    for (events, is_last_right, is_in_force) in [
        (&[MAP][..], true, true),
        (&[WRONG_MAP], false, false),
        (&[MAP, ROTATE], true, false),
        (&[MAP, WRONG_ROTATE], false, true),
    ] {
        let log = [FILE_HEADER, DESCRIPTION, COUNTED, &events.concat()].concat();
        let mut file = VerifiedFile::new(VERSION, count, &log[..]).unwrap();
        let mut last = Ok(());
        while let Some(item) = file.advance() {
            last = item;
        }
        assert_eq!(last.is_ok(), is_last_right);
        assert_eq!(file.reader().get_tme(5).is_some(), is_in_force);
        // A file that isn't verified gives the mismatch as an event.
        let file = BinlogFile::new(VERSION, &log[..]).unwrap();
        assert!(file.items().all(|item| item.is_ok()));
    }
}
