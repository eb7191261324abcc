//! What is written of events, by how many calls of the writer and of the checksum function.

use std::cell::Cell;
use std::io::{self, ErrorKind, Write};

use binlog::consts::BinlogVersion;
use binlog::events::Event;
use binlog::{BinlogFile, BinlogFileHeader, Error};

use crate::bytes::*;
use crate::{VERSION, checksummed, count, low_flags, plain};

fn written(event: &Event, checksum: impl Fn(&[u8]) -> u32) -> Vec<u8> {
    let mut output = Vec::new();
    event.write(VERSION, checksum, &mut output).unwrap();
    output
}

#[test]
fn an_event_is_written_with_its_right_checksum() {
    let description = [DESCRIPTION, COUNTED].concat();
    for (bytes, wanted) in [
        (&description[..], &description[..]),
        (COUNTED_XID, COUNTED_XID),
        (WRONG_XID, COUNTED_XID),
        (IN_USE_XID, IN_USE_XID),
    ] {
        let event = checksummed(bytes).unwrap();
        assert_eq!(written(&event, count), wanted);
        assert_eq!(written(&event.clone(), count), wanted);
        let mut output = Vec::new();
        event.as_ref().write(VERSION, count, &mut output).unwrap();
        assert_eq!(output, wanted);
    }
    assert_eq!(written(&plain(PLAIN_XID).unwrap(), count), PLAIN_XID);
}

#[test]
fn the_in_use_flag_is_written_and_not_checksummed() {
    let unflagged = b"\0\0\0\0\x10\x01\0\0\0\x1f\0\0\0\0\0\0\0\x01\0\x0b\0\0\0\0\0\0\0\0\0\0\0";
    assert_eq!(
        written(&checksummed(IN_USE_XID).unwrap(), low_flags),
        unflagged
    );
}

#[test]
fn an_event_of_more_than_8_mebibytes_is_written_as_it_was_read() {
    let mut bytes = b"\0\0\0\0\x03\x01\0\0\0\x14\0\x80\0\0\0\0\0\0\0".to_vec();
    bytes.resize(8_388_628, 7);
    let event = plain(&bytes).unwrap();
    assert_eq!(event.data().len(), 8_388_609);
    assert_eq!(written(&event, count), bytes);
}

#[test]
fn a_log_of_mysql_is_written_back() {
    let log = [FILE_HEADER, &REAL_EVENTS.concat()].concat();
    let mut output = Vec::new();
    BinlogFileHeader.write(VERSION, &mut output).unwrap();
    for event in BinlogFile::new(VERSION, &log[..]).unwrap().items() {
        event.unwrap().write_crc32(VERSION, &mut output).unwrap();
    }
    assert_eq!(output, log);
}

#[test]
fn the_file_header_is_the_same_for_each_version() {
    for version in [
        BinlogVersion::Version1,
        BinlogVersion::Version2,
        BinlogVersion::Version3,
        BinlogVersion::Version4,
    ] {
        let mut output = Vec::new();
        BinlogFileHeader.write(version, &mut output).unwrap();
        assert_eq!(
            (&output[..], BinlogFileHeader.len(version)),
            (FILE_HEADER, 4)
        );
        assert!(matches!(
            BinlogFileHeader.write(version, Failing::behind(0)),
            Err(Error::Writer(_))
        ));
    }
}

/// Takes all bytes of each call, counts the calls, and fails at each behind so many.
struct Failing {
    bytes: Vec<u8>,
    calls: usize,
    fails_behind: usize,
}

impl Failing {
    fn behind(calls: usize) -> Self {
        Failing {
            bytes: Vec::new(),
            calls: 0,
            fails_behind: calls,
        }
    }
}

impl Write for Failing {
    fn write(&mut self, bytes: &[u8]) -> io::Result<usize> {
        if self.calls >= self.fails_behind {
            return Err(ErrorKind::ConnectionReset.into());
        }
        self.calls += 1;
        self.bytes.extend(bytes);
        Ok(bytes.len())
    }

    fn flush(&mut self) -> io::Result<()> {
        Ok(())
    }
}

#[test]
fn an_event_is_written_by_one_call_and_a_new_checksum_by_one_more() {
    let description = checksummed(&[DESCRIPTION, COUNTED].concat()).unwrap();
    for (event, calls) in [
        (description, 1),
        (checksummed(COUNTED_XID).unwrap(), 1),
        (checksummed(IN_USE_XID).unwrap(), 1),
        (checksummed(WRONG_XID).unwrap(), 2),
        (plain(PLAIN_XID).unwrap(), 1),
    ] {
        let mut output = Failing::behind(usize::MAX);
        event.write(VERSION, count, &mut output).unwrap();
        assert_eq!(output.calls, calls);
    }
}

#[test]
fn a_checksum_that_fails_to_go_out_is_told() {
    let event = checksummed(WRONG_XID).unwrap();
    for (calls, len) in [(0, 0), (1, 27)] {
        let mut output = Failing::behind(calls);
        assert!(matches!(
            event.write(VERSION, count, &mut output),
            Err(Error::Writer(_))
        ));
        assert_eq!(output.bytes, WRONG_XID[..len]);
    }
}

/// How an event is written, and how often the checksum function is called for it.
fn calls_for(event: &Event, output: &mut Failing) -> (Result<(), Error>, u32) {
    let calls = Cell::new(0);
    let counting = |bytes: &[u8]| {
        calls.set(calls.get() + 1);
        count(bytes)
    };
    (event.write(VERSION, counting, output), calls.get())
}

#[test]
fn a_checksum_that_is_due_is_computed_once() {
    for (event, calls) in [(checksummed(COUNTED_XID), 1), (plain(PLAIN_XID), 0)] {
        let mut output = Failing::behind(usize::MAX);
        assert_eq!(calls_for(&event.unwrap(), &mut output), (Ok(()), calls));
    }
}

#[test]
fn nothing_is_computed_or_written_under_an_unknown_algorithm() {
    for algorithm in [2, 7, 127] {
        let log = [FILE_HEADER, DESCRIPTION, &[algorithm, 0, 0, 0, 0], ZERO_XID].concat();
        let events = BinlogFile::new(VERSION, &log[..]).unwrap().items();
        let lens = events.map(|event| {
            let event = event.unwrap();
            let mut output = Failing::behind(usize::MAX);
            let refused = Err(Error::UnknownChecksumAlg(algorithm));
            assert_eq!(calls_for(&event, &mut output), (refused, 0));
            assert_eq!(output.calls, 0);
            event.data().len()
        });
        assert!(lens.eq([57, 8]));
    }
}
