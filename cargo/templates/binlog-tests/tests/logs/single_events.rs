//! Events that are read one by one, and their bodies as one type.

use binlog::events::{
    BinlogEventFooter, BinlogEventHeader, Event, FormatDescriptionEvent, IntvarEvent, RandEvent,
    RotateEvent, XidEvent,
};
use binlog::{BinlogFile, Error};

use crate::bytes::*;
use crate::{CRC32, VERSION, checksummed, event_under, plain};

/// All bytes of this header but those of the size differ, which shows where each field is read from.
const DISTINCT_AND_REST: &[u8] =
    b"\x01\x02\x03\x04\x05\x06\x07\x08\x09\x1b\0\0\0\x0e\x0f\x10\x11\x12\x13\
    \x0b\0\0\0\0\0\0\0rest";

#[test]
fn an_event_is_taken_from_the_input_and_nothing_else() {
    let mut input = DISTINCT_AND_REST;
    let event = Event::read(&FormatDescriptionEvent::new(VERSION), &mut input).unwrap();
    assert_eq!((event.data(), input), (XID_BODY, &b"rest"[..]));
    let header = event.header();
    assert_eq!(header.timestamp(), 0x0403_0201);
    assert_eq!(header.event_type_raw(), 5);
    assert_eq!(header.server_id(), 0x0908_0706);
    assert_eq!(header.event_size(), 27);
    assert_eq!(header.log_pos(), 0x1110_0f0e);
    assert_eq!(header.flags_raw(), 0x1312);
    assert_eq!(BinlogEventHeader::LEN, 19);
}

#[test]
fn bytes_that_are_no_event_are_refused() {
    for bytes in [&b""[..], &STOP[..18], &SHORT[..21]] {
        assert_eq!(plain(bytes), Err(Error::EndOfInput));
    }
    assert_eq!(plain(UNDERSIZED).unwrap_err().number(), 3);
}

#[test]
fn an_event_too_short_for_its_checksum_is_taken() {
    let description =
        FormatDescriptionEvent::new(VERSION).with_footer(BinlogEventFooter::new(CRC32));
    let bytes = [SHORT, b"rest"].concat();
    let mut input = &bytes[..];
    let refused = Event::read(&description, &mut input);
    assert_eq!(
        (refused, input),
        (Err(Error::TooShortForChecksum), &b"rest"[..])
    );
}

#[test]
fn a_cut_description_is_an_event_without_its_last_bytes() {
    let event = plain(CUT_DESCRIPTION).unwrap();
    assert_eq!((event.data().len(), event.checksum()), (47, Some([0; 4])));
    assert_eq!(event.footer().checksum_alg_raw(), Some(0));
    // In a file it would come into force, for which it is too short.
    let log = [FILE_HEADER, CUT_DESCRIPTION].concat();
    let mut file = BinlogFile::new(VERSION, &log[..]).unwrap();
    assert_eq!(file.next(), Some(Err(Error::EndOfBody)));
}

#[test]
fn nothing_is_cut_where_checksums_are_disabled() {
    let mut footer = BinlogEventFooter::new(CRC32);
    footer.set_checksum_enabled(false);
    let event = event_under(footer, COUNTED_XID).unwrap();
    assert_eq!(
        (event.data().len(), event.footer(), event.checksum()),
        (12, footer, None)
    );
}

#[test]
fn an_event_is_read_as_the_type_that_is_asked_for() {
    // An XID event of MySQL 5.0, and one whose data has nine bytes.
    let xid = plain(b"\xfd5\xbbJ\x10\x01\0\0\0\x1b\0\0\0D\x02\0\0\0\0\x0b\0\0\0\0\0\0\0").unwrap();
    assert_eq!(xid.read_event::<XidEvent>().unwrap().xid, 11);
    let long = plain(b"\0\0\0\0\x10\x01\0\0\0\x1c\0\0\0\0\0\0\0\0\0\x0b\0\0\0\0\0\0\0\0").unwrap();
    assert_eq!(long.read_event::<XidEvent>().unwrap_err().number(), 7);
    assert_eq!(
        plain(SHORT_ROTATE).unwrap().read_event::<XidEvent>(),
        Err(Error::EndOfBody)
    );
    assert_eq!(long.read_event::<IntvarEvent>().unwrap_err().number(), 6);
    assert_eq!(long.read_event::<RandEvent>(), Err(Error::EndOfBody));
}

#[test]
fn an_event_is_read_as_a_rotate() {
    let bytes =
        b"\xfd5\xbbJ\x04\x01\0\0\0,\0\0\0\x86\x06\0\0\0\0\x04\0\0\0\0\0\0\0master-bin.000002";
    let event = plain(bytes).unwrap();
    let rotate: RotateEvent = event.read_event().unwrap();
    assert_eq!(
        (rotate.position(), rotate.name_raw()),
        (4, &b"master-bin.000002"[..])
    );
    assert!(!rotate.is_fake());
}

#[test]
fn a_copy_and_a_borrowed_event_are_as_the_event() {
    let event = checksummed(COUNTED_XID).unwrap();
    let copy = event.clone();
    assert_eq!(copy, event);
    for borrowed in [event.as_ref(), copy.as_ref()] {
        assert_eq!(borrowed.header(), event.header());
        assert_eq!(borrowed.footer(), BinlogEventFooter::new(CRC32));
        assert_eq!(borrowed.fde(), event.fde().as_ref());
        assert_eq!(
            (borrowed.data(), borrowed.checksum()),
            (XID_BODY, Some([27, 0, 0, 0]))
        );
        assert_eq!(borrowed.read_event::<XidEvent>().unwrap().xid, 11);
    }
    // The data outlive the borrowed event.
    let data = event.as_ref().data();
    assert_eq!(data, XID_BODY);
}
