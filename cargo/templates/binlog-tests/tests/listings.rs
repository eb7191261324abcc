//! Listings of logs: with verified checksums, the statuses of their answers, a line of JSON that no log has without `--verify`, and
//! that lines of JSON are flushed by the caller.

use std::io::{self, ErrorKind, Read, Write};

use binlog::counted::SliceReader;
use binlog::{BinlogFileHeader, Error};
use binlog_tools::binlog_json_lines::{JsonLines, JsonWriter, LineOptions};
use binlog_tools::binlog_listing::{list, list_slice, list_verified};
use binlog_tools::binlog_visits::{exit_status, visit_counted};

/// A format description of server 5.6.1 without its algorithm byte and its checksum.
const DESCRIPTION: &[u8] = b"\0\0\0\0\x0f\x01\0\0\0\x51\0\0\0\0\0\0\0\0\0\
    \x04\x005.6.1\0\0\0\0\0\0\0\0\0\0\0\0\0\0\0\0\0\0\0\0\0\0\0\0\0\0\0\0\0\0\0\0\0\0\0\0\0\0\0\0\0\0\0\0\0\
    \0\0\0\0\x13";

/// The ends of a description: its algorithm, and its checksum, which is to be the number of bytes before it, 77.
const COUNTED: &[u8] = b"\x01\x4d\0\0\0";
const WRONG: &[u8] = b"\x01\x4e\0\0\0";
const OFF: &[u8] = b"\0\x4d\0\0\0";
const UNKNOWN: &[u8] = b"\x07\x4d\0\0\0";

/// An XID event whose checksum is the number of bytes before it, 27, and others with a wrong one and without.
const XID: &[u8] = b"\0\0\0\0\x10\x01\0\0\0\x1f\0\0\0\0\0\0\0\0\0\x0b\0\0\0\0\0\0\0\x1b\0\0\0";
const WRONG_XID: &[u8] =
    b"\0\0\0\0\x10\x01\0\0\0\x1f\0\0\0\0\0\0\0\0\0\x0b\0\0\0\0\0\0\0\x1c\0\0\0";
const PLAIN_XID: &[u8] = b"\0\0\0\0\x10\x01\0\0\0\x1b\0\0\0\0\0\0\0\0\0\x0b\0\0\0\0\0\0\0";

/// The ends of descriptions, the events behind them, the lines, and whether one is of an error.
const LOGS: [(&[u8], &[u8], &str, bool); 5] = [
    (
        COUNTED,
        XID,
        "0 15 81 0 0000 57 4d000000 read\n1 16 31 0 0000 8 1b000000 read\n",
        false,
    ),
    (
        OFF,
        PLAIN_XID,
        "0 15 81 0 0000 57 4d000000 read\n1 16 27 0 0000 8 - read\n",
        false,
    ),
    (
        COUNTED,
        WRONG_XID,
        "0 15 81 0 0000 57 4d000000 read\n1 error E17\n",
        true,
    ),
    // A description that is refused isn't in force behind its line.
    (
        WRONG,
        PLAIN_XID,
        "0 error E17\n1 16 27 0 0000 8 - read\n",
        true,
    ),
    // An unknown algorithm is verified, too.
    (
        UNKNOWN,
        XID,
        "0 15 81 0 0000 57 4d000000 read\n1 16 31 0 0000 8 1b000000 read\n",
        false,
    ),
];

#[test]
fn events_whose_checksums_are_right_are_listed() {
    for (end, event, lines, has_errors) in LOGS {
        let log = [&BinlogFileHeader::VALUE, DESCRIPTION, end, event].concat();
        let mut output = Vec::new();
        let count = |bytes: &[u8]| bytes.len() as u32;
        assert_eq!(list_verified(count, &log[..], &mut output), Ok(has_errors));
        assert_eq!(String::from_utf8_lossy(&output), lines);
    }
}

#[test]
fn a_line_of_json_of_a_mismatch_has_both_checksums() {
    let error = Error::ChecksumMismatch {
        stored: 0x1c,
        computed: 0x1b,
    };
    let mut lines = JsonLines::new();
    let line = lines.error_line(1, &error).unwrap();
    let wanted = r#"{"index":1,"error":17,"stored":"1c000000","computed":"1b000000"}"#;
    assert_eq!(String::from_utf8_lossy(line), format!("{wanted}\n"));
}

/// A device of no room and no bytes, whose reads and flushes fail.
struct Broken;

impl Read for Broken {
    fn read(&mut self, _: &mut [u8]) -> io::Result<usize> {
        Err(ErrorKind::ConnectionReset.into())
    }
}

impl Write for Broken {
    fn write(&mut self, _: &[u8]) -> io::Result<usize> {
        Ok(0)
    }

    fn flush(&mut self) -> io::Result<()> {
        Err(ErrorKind::ConnectionReset.into())
    }
}

#[test]
fn each_answer_has_its_status() {
    assert_eq!([exit_status(&Ok(false)), exit_status(&Ok(true))], [0, 2]);
    for error in [Error::EndOfInput, Error::InvalidFileHeader] {
        assert_eq!(exit_status(&Err(error)), 1);
    }
    for error in [Error::Memory, Error::FrameMemory] {
        assert_eq!(exit_status(&Err(error)), 3);
    }
    let log = [&BinlogFileHeader::VALUE, PLAIN_XID].concat();
    let no_reader = list(io::BufReader::new(Broken), Vec::new());
    let no_reader_in_event = list(io::BufReader::new(log[..20].chain(Broken)), Vec::new());
    let no_writer = list(&log[..], Broken);
    let of_slice = list_slice(&log, Broken);
    assert!(matches!(no_reader, Err(Error::Reader(_))));
    assert!(matches!(no_reader_in_event, Err(Error::ReaderInFrame(_))));
    assert!(matches!(no_writer, Err(Error::Writer(_))));
    for answer in [no_reader, no_reader_in_event, no_writer, of_slice] {
        assert_eq!(exit_status(&answer), 3);
    }
}

/// Counts its flushes.
#[derive(Default)]
struct Flushed(u64);

impl Write for Flushed {
    fn write(&mut self, bytes: &[u8]) -> io::Result<usize> {
        Ok(bytes.len())
    }

    fn flush(&mut self) -> io::Result<()> {
        self.0 += 1;
        Ok(())
    }
}

/// Whether lines of JSON of a log have errors, and how often they are flushed.
fn json_errors(log: &[u8]) -> (bool, u64) {
    let mut lines = JsonWriter::new(Flushed::default(), LineOptions::new());
    visit_counted(&mut SliceReader::new(log), &mut lines).unwrap();
    let has_errors = lines.has_errors();
    (has_errors, lines.into_output().0)
}

#[test]
fn lines_of_json_are_flushed_by_the_caller() {
    let plain = [&BinlogFileHeader::VALUE, PLAIN_XID, PLAIN_XID].concat();
    // A header that states a size of 18.
    let short = b"\0\0\0\0\x03\x01\0\0\0\x12\0\0\0\0\0\0\0\0\0";
    let broken_off = [&BinlogFileHeader::VALUE, PLAIN_XID, short].concat();
    assert_eq!(json_errors(&plain), (false, 0));
    assert_eq!(json_errors(&broken_off), (true, 0));
}
