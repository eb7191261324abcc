//! Where events and the iteration begin and end.

use std::io::{self, BufReader, ErrorKind, Read};

use binlog::{BinlogFile, BinlogFileHeader, BinlogSlice, Error};

use crate::bytes::*;
use crate::{Item, VERSION, seen, seen_owned};

const XID: Item = Ok((16, 8, None));
const BARE: Item = Ok((3, 0, None));

/// The parts of logs, their items, and the length of the tail that is told at the end.
const LOGS: [(&[&[u8]], &[Item], Option<usize>); 6] = [
    (&[FILE_HEADER], &[], Some(0)),
    (&[FILE_HEADER, PLAIN_XID, STOP], &[XID, BARE], Some(0)),
    // 18 bytes of a header, and seven of the eight bytes of a body.
    (
        &[FILE_HEADER, b"\0\0\0\0\x03\x01\0\0\0\x13\0\0\0\0\0\0\0\0"],
        &[],
        Some(18),
    ),
    (
        &[
            FILE_HEADER,
            STOP,
            b"\0\0\0\0\x10\x01\0\0\0\x1b\0\0\0\0\0\0\0\0\0\x0b\0\0\0\0\0\0",
        ],
        &[BARE],
        Some(26),
    ),
    // No event can be found behind a size that is too small.
    (
        &[FILE_HEADER, STOP, UNDERSIZED, STOP],
        &[BARE, Err(3)],
        None,
    ),
    (
        &[FILE_HEADER, SHORT_MAP, PLAIN_XID],
        &[Err(5), XID],
        Some(0),
    ),
];

#[test]
fn a_file_and_a_slice_end_for_good_and_tell_the_length_of_the_tail() {
    for (parts, items, tail) in LOGS {
        let log = parts.concat();
        let mut file = BinlogFile::new(VERSION, &log[..]).unwrap();
        let mut slice = BinlogSlice::new(VERSION, &log).unwrap();
        for item in items {
            assert_eq!((file.tail_len(), slice.tail_len()), (None, None));
            assert_eq!(file.next().map(seen_owned).as_ref(), Some(item));
            assert_eq!(slice.next().map(seen).as_ref(), Some(item));
        }
        for _ in 0..3 {
            assert!(file.next().is_none() && slice.next().is_none());
            assert_eq!((file.tail_len(), slice.tail_len()), (tail, tail));
        }
    }
}

/// Fails once, and then ends.
struct FailsOnce(bool);

impl Read for FailsOnce {
    fn read(&mut self, _: &mut [u8]) -> io::Result<usize> {
        if std::mem::replace(&mut self.0, true) {
            return Ok(0);
        }
        Err(ErrorKind::ConnectionReset.into())
    }
}

#[test]
fn no_tail_is_told_behind_a_failure_within_an_event() {
    let input = [FILE_HEADER, &PLAIN_XID[..20]].concat();
    let input = BufReader::new(input.chain(FailsOnce(false)));
    let mut file = BinlogFile::new(VERSION, input).unwrap();
    assert!(matches!(file.next(), Some(Err(Error::ReaderInFrame(_)))));
    assert!(file.next().is_none());
    assert_eq!(file.tail_len(), None);
}

#[test]
fn nothing_is_taken_behind_a_failure_within_an_event() {
    let begin = [FILE_HEADER, &PLAIN_XID[..20]].concat();
    let rest = &PLAIN_XID[20..];
    let mut input = BufReader::new(begin.chain(FailsOnce(false)).chain(rest));
    let mut file = BinlogFile::new(VERSION, &mut input).unwrap();
    assert!(matches!(file.next_ref(), Some(Err(Error::ReaderInFrame(_)))));
    for _ in 0..3 {
        assert!(file.next_ref().is_none());
    }
    drop(file);
    let mut left = Vec::new();
    input.read_to_end(&mut left).unwrap();
    assert_eq!(left, rest);
}

#[test]
fn the_file_header_is_four_bytes() {
    assert_eq!(
        BinlogFileHeader::read(&b"\xfebin"[..]),
        Ok(BinlogFileHeader)
    );
    for short in [&b""[..], b"\xfebi"] {
        assert_eq!(BinlogFileHeader::read(short), Err(Error::EndOfInput));
        assert_eq!(
            BinlogSlice::new(VERSION, short).err(),
            Some(Error::EndOfInput)
        );
    }
    for other in [&b"\xfebio"[..], b"\xffbin\0"] {
        assert_eq!(BinlogFileHeader::read(other), Err(Error::InvalidFileHeader));
        assert_eq!(
            BinlogSlice::new(VERSION, other).err(),
            Some(Error::InvalidFileHeader)
        );
    }
}
