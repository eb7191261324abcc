//! Which checksum is computed for an event, and over which bytes.

use binlog::BinlogSlice;
use binlog::consts::BinlogChecksumAlg;

use crate::bytes::*;
use crate::{CRC32, VERSION, checksummed, count, low_flags, plain};

const NO_CHECKSUM: BinlogChecksumAlg = BinlogChecksumAlg::BINLOG_CHECKSUM_ALG_OFF;

#[test]
fn checksums_are_those_of_zlib() {
    for bytes in REAL_EVENTS {
        let event = checksummed(bytes).unwrap();
        let checksum = event.calc_crc32().unwrap();
        assert_eq!(event.checksum(), Some(checksum.to_le_bytes()));
    }
}

#[test]
fn all_bytes_before_the_checksum_are_checksummed() {
    let description = [DESCRIPTION, COUNTED].concat();
    for (bytes, counted) in [(&description[..], 77), (COUNTED_XID, 27), (IN_USE_XID, 27)] {
        let event = checksummed(bytes).unwrap();
        assert_eq!(event.calc_checksum(CRC32, count), Ok(counted));
        assert_eq!(event.as_ref().calc_checksum(CRC32, count), Ok(counted));
    }
    // Where none was read, too.
    assert_eq!(
        plain(PLAIN_XID).unwrap().calc_checksum(CRC32, count),
        Ok(27)
    );
}

#[test]
fn the_in_use_flag_is_not_checksummed() {
    let event = checksummed(IN_USE_XID).unwrap();
    assert_eq!(event.header().flags_raw(), 1);
    assert_eq!(event.calc_checksum(CRC32, low_flags), Ok(0));
}

/// The last byte, which for a format description is the algorithm.
fn last_byte(bytes: &[u8]) -> u32 {
    u32::from(*bytes.last().unwrap())
}

// The checksummed algorithm byte is the one that the caller passes, and not the one that the description states.
#[test]
fn a_checksum_is_of_the_algorithm_asked_for() {
    let event = plain(&[DESCRIPTION, OFF].concat()).unwrap();
    assert_eq!(event.calc_checksum(NO_CHECKSUM, last_byte), Ok(0));
    assert_eq!(event.calc_checksum(CRC32, last_byte), Ok(1));
}

#[test]
fn events_of_a_slice_have_the_same_checksums() {
    let log = [FILE_HEADER, DESCRIPTION, COUNTED, COUNTED_XID].concat();
    let events = BinlogSlice::new(VERSION, &log).unwrap();
    let counted = events.map(|event| event.unwrap().calc_checksum(CRC32, count));
    assert!(counted.eq([Ok(77), Ok(27)]));
}
