//! Events as bytes.

pub const FILE_HEADER: &[u8] = b"\xfebin";

/// A format description of server 5.6.1 without its algorithm byte and its checksum.
pub const DESCRIPTION: &[u8] = b"\0\0\0\0\x0f\x01\0\0\0\x51\0\0\0\0\0\0\0\0\0\
    \x04\x005.6.1\0\0\0\0\0\0\0\0\0\0\0\0\0\0\0\0\0\0\0\0\0\0\0\0\0\0\0\0\0\0\0\0\0\0\0\0\0\0\0\0\0\0\0\0\0\
    \0\0\0\0\x13";

/// The same with a header length of 18.
pub const REFUSED_DESCRIPTION: &[u8] = b"\0\0\0\0\x0f\x01\0\0\0\x51\0\0\0\0\0\0\0\0\0\
    \x04\x005.6.1\0\0\0\0\0\0\0\0\0\0\0\0\0\0\0\0\0\0\0\0\0\0\0\0\0\0\0\0\0\0\0\0\0\0\0\0\0\0\0\0\0\0\0\0\0\
    \0\0\0\0\x12";

/// The first 52 bytes of the body of a description, from which on it has a footer of its own.
pub const CUT_DESCRIPTION: &[u8] = b"\0\0\0\0\x0f\x01\0\0\0\x47\0\0\0\0\0\0\0\0\0\
    \x04\x005.6.1\0\0\0\0\0\0\0\0\0\0\0\0\0\0\0\0\0\0\0\0\0\0\0\0\0\0\0\0\0\0\0\0\0\0\0\0\0\0\0\0\0\0\0\0\0";

/// The ends of a description: its algorithm, 1 or 0, and its checksum, 77.
pub const COUNTED: &[u8] = b"\x01\x4d\0\0\0";
pub const OFF: &[u8] = b"\0\x4d\0\0\0";

/// An XID event of 31 bytes with the checksum 27, with a wrong one, and with zeros; and with the in-use flag, which isn't checksummed.
pub const COUNTED_XID: &[u8] =
    b"\0\0\0\0\x10\x01\0\0\0\x1f\0\0\0\0\0\0\0\0\0\x0b\0\0\0\0\0\0\0\x1b\0\0\0";
pub const WRONG_XID: &[u8] =
    b"\0\0\0\0\x10\x01\0\0\0\x1f\0\0\0\0\0\0\0\0\0\x0b\0\0\0\0\0\0\0\x1c\0\0\0";
pub const ZERO_XID: &[u8] =
    b"\0\0\0\0\x10\x01\0\0\0\x1f\0\0\0\0\0\0\0\0\0\x0b\0\0\0\0\0\0\0\0\0\0\0";
pub const IN_USE_XID: &[u8] =
    b"\0\0\0\0\x10\x01\0\0\0\x1f\0\0\0\0\0\0\0\x01\0\x0b\0\0\0\0\0\0\0\x1b\0\0\0";

/// An XID event of 27 bytes without a checksum.
pub const PLAIN_XID: &[u8] = b"\0\0\0\0\x10\x01\0\0\0\x1b\0\0\0\0\0\0\0\0\0\x0b\0\0\0\0\0\0\0";

/// The body of these events.
pub const XID_BODY: &[u8] = b"\x0b\0\0\0\0\0\0\0";

/// An event with a body of three bytes, and a header without a body.
pub const SHORT: &[u8] = b"\0\0\0\0\x10\x01\0\0\0\x16\0\0\0\0\0\0\0\0\0abc";
pub const STOP: &[u8] = b"\0\0\0\0\x03\x01\0\0\0\x13\0\0\0\0\0\0\0\0\0";

/// A header that states a size of 18, one byte less than a header has.
pub const UNDERSIZED: &[u8] = b"\0\0\0\0\x10\x01\0\0\0\x12\0\0\0\0\0\0\0\0\0";

/// A ROTATE event whose position has seven bytes.
pub const SHORT_ROTATE: &[u8] = b"\0\0\0\0\x04\x01\0\0\0\x1a\0\0\0\0\0\0\0\0\0\x04\0\0\0\0\0\0";

/// Table maps: of id 5 for the tables `t` and `u` of the database `d`, each with one column; and one that lacks its last byte.
pub const MAP_OF_T: &[u8] = b"\0\0\0\0\x13\x01\0\0\0\x25\0\0\0\0\0\0\0\0\0\
    \x05\0\0\0\0\0\x01\0\x01d\0\x01t\0\x01\x03\0\x01";
pub const MAP_OF_U: &[u8] = b"\0\0\0\0\x13\x01\0\0\0\x25\0\0\0\0\0\0\0\0\0\
    \x05\0\0\0\0\0\x01\0\x01d\0\x01u\0\x01\x03\0\x01";
pub const SHORT_MAP: &[u8] = b"\0\0\0\0\x13\x01\0\0\0\x24\0\0\0\0\0\0\0\0\0\
    \x05\0\0\0\0\0\x01\0\x01d\0\x01t\0\x01\x03\0";

/// Three events of a log of MySQL 5.7 with the CRC-32 checksums that zlib computed: a format description with the in-use flag, a
/// QUERY and an XID event.
pub const REAL_EVENTS: [&[u8]; 3] = [
    b"\xfd5\xbbJ\x0f\x01\0\0\0w\0\0\0\0\0\0\0\x01\0\x04\x005.7.44-log\0\0\0\0\0\0\0\0\0\0\0\0\0\0\0\0\
      \0\0\0\0\0\0\0\0\0\0\0\0\0\0\0\0\0\0\0\0\0\0\0\0\0\0\0\0\x138\x0d\0\x08\0\x12\0\x04\x04\x04\x04\
      \x12\0\0_\0\x04\x1a\x08\0\0\0\x08\x08\x08\x02\0\0\0\x0a\x0a\x0a**\0\x124\0\x01\x0cs\xba\xc5",
    b"\xfd5\xbbJ\x02\x01\0\0\0H\0\0\0\xc3\0\0\0\x08\0\x01\0\0\0\0\0\0\0\x04\0\0\x1a\0\0\0@\0\0\x01\0\0\
      \0\0\0\0\0\0\x06\x03std\x04\x08\0\x08\0\x08\0test\0BEGIN\xd5\x87\x82\"",
    b"\xfd5\xbbJ\x10\x01\0\0\0\x1f\0\0\0\xe2\0\0\0\0\0\x0b\0\0\0\0\0\0\0\x11\xfc\0\xed",
];
