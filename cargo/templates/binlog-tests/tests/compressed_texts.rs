//! Texts that are compressed: zlib streams, and what MariaDB stores for a statement or for rows.

use binlog::mariadb::{CompressionError, uncompress};
use binlog::zlib::{self, decompress_zlib};

/// A stored block and a block of fixed codes, of texts of 5 and of 19 bytes, that Python's `zlib` made.
const STORED: &[u8] = b"x\x01\x01\x05\x00\xfa\xffhello\x06,\x02\x15";
const FIXED: &[u8] = b"x\x01\xcbH\xcd\xc9\xc9\xd7Q\xc8@\xa2\x00D(\x06\xd5";

/// The zlib stream of `insert into t values (1)`, as zlib 1.2 makes it at level 6.
const STATEMENT: &[u8] =
    b"\x78\x9c\xcb\xcc\x2b\x4e\x2d\x2a\x51\xc8\xcc\x2b\xc9\x57\x28\x51\x28\x4b\xcc\x29\x4d\x2d\x56\xd0\x30\xd4\x04\x00\x71\xa0\x08\x56";

#[test]
fn a_text_may_be_as_long_as_its_limit() {
    assert_eq!(decompress_zlib(STORED, 5).unwrap(), b"hello");
    assert_eq!(decompress_zlib(FIXED, 19).unwrap().len(), 19);
}

#[test]
fn a_longer_text_is_refused() {
    for limit in [4, 0] {
        assert_eq!(decompress_zlib(STORED, limit), Err(zlib::Error::TooLong));
    }
    for limit in [18, 6, 0] {
        assert_eq!(decompress_zlib(FIXED, limit), Err(zlib::Error::TooLong));
    }
}

/// What is stored: a head and a stream.
fn stored(head: &[u8], stream: &[u8]) -> Vec<u8> {
    [head, stream].concat()
}

// The length of the text takes as many bytes as the low bits of the first one say.
#[test]
fn stored_statements_are_uncompressed() {
    for (head, limit) in [
        (&b"\x81\x18"[..], 24),
        (b"\x84\0\0\0\x18", 1_000),
        (b"\x99\x18", 1_000),
    ] {
        let text = uncompress(&stored(head, STATEMENT), limit).unwrap();
        assert_eq!(text, b"insert into t values (1)");
    }
}

#[test]
fn what_is_no_stored_statement_is_refused() {
    for (head, stream, limit, why) in [
        (&b""[..], &b""[..], 24, CompressionError::Truncated),
        (b"\x82\x18", b"", 24, CompressionError::Truncated),
        (b"\x80", STATEMENT, 24, CompressionError::Head),
        (b"\x85\0\0\0\0\x18", STATEMENT, 24, CompressionError::Head),
        (b"\xa1\x18", STATEMENT, 24, CompressionError::Head),
        (b"\x81\x18", STATEMENT, 23, CompressionError::TooLong),
        (b"\x81\x19", STATEMENT, 100, CompressionError::Length),
        (b"\x81\x17", STATEMENT, 100, CompressionError::Length),
        (
            b"\x81\x18",
            b"",
            100,
            CompressionError::Stream(zlib::Error::EndOfInput),
        ),
        (
            b"\x81\x18",
            b"\x78\x9d\x03\0\0\0\0\x01",
            100,
            CompressionError::Stream(zlib::Error::HeaderCheck),
        ),
    ] {
        assert_eq!(uncompress(&stored(head, stream), limit), Err(why));
    }
}
