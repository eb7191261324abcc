//! Which format description and which table maps are in force, and how the events under them are read.

use binlog::consts::BinlogVersion;
use binlog::events::{BinlogEventFooter, FormatDescriptionEvent};
use binlog::{BinlogFile, Error, EventStreamReader};

use crate::bytes::*;
use crate::{CRC32, VERSION, seen};

/// A description of server 5.6.1 with checksums, and an event under it.
const DESCRIBED: [&[u8]; 4] = [FILE_HEADER, DESCRIPTION, COUNTED, COUNTED_XID];

fn is_of_5_6_1(description: &FormatDescriptionEvent<'_>) {
    assert_eq!(description.binlog_version(), VERSION);
    assert_eq!(description.split_version(), (5, 6, 1));
    assert_eq!(description.server_version_raw().len(), 50);
    assert_eq!(description.event_type_header_lengths(), b"");
    assert_eq!(description.footer(), BinlogEventFooter::new(CRC32));
}

#[test]
fn the_description_of_a_file_comes_into_force() {
    let log = DESCRIBED.concat();
    let mut file = BinlogFile::new(BinlogVersion::Version3, &log[..]).unwrap();
    let default = file.reader().get_fde();
    assert_eq!(default.binlog_version(), BinlogVersion::Version3);
    assert_eq!(default.server_version_raw(), b"");
    assert!(matches!(file.next(), Some(Ok(_))));
    is_of_5_6_1(file.reader().get_fde());
}

#[test]
fn an_event_knows_its_description() {
    let log = DESCRIBED.concat();
    let mut file = BinlogFile::new(VERSION, &log[..]).unwrap();
    let footer = BinlogEventFooter::new(CRC32);
    let description = file.next().unwrap().unwrap();
    // The description itself stands under the default one, with its own footer.
    let default = FormatDescriptionEvent::new(VERSION).with_footer(footer);
    assert_eq!(
        (description.fde(), description.footer()),
        (&default, footer)
    );
    let xid = file.next().unwrap().unwrap();
    assert_eq!((xid.fde(), xid.footer()), (file.reader().get_fde(), footer));
    is_of_5_6_1(xid.fde());
    assert_eq!(xid.data(), XID_BODY);
}

#[test]
fn a_borrowed_description_stands_under_the_one_before() {
    let log = [
        FILE_HEADER,
        DESCRIPTION,
        COUNTED,
        DESCRIPTION,
        COUNTED,
        COUNTED_XID,
    ]
    .concat();
    let mut file = BinlogFile::new(VERSION, &log[..]).unwrap();
    for len in [0, 50, 50] {
        let event = file.next_ref().unwrap().unwrap();
        assert_eq!(event.fde().server_version_raw().len(), len);
    }
}

#[test]
fn a_reader_takes_descriptions_from_other_inputs() {
    let log = [FILE_HEADER, COUNTED_XID, COUNTED_XID].concat();
    let mut file = BinlogFile::new(VERSION, &log[..]).unwrap();
    assert_eq!(file.next_ref().map(seen), Some(Ok((16, 12, None))));
    let description = [DESCRIPTION, COUNTED].concat();
    let mut input = &description[..];
    assert!(matches!(file.reader_mut().read(&mut input), Ok(Some(_))));
    assert_eq!(file.reader_mut().read(&mut input), Ok(None));
    assert_eq!(
        file.next_ref().map(seen),
        Some(Ok((16, 8, Some([27, 0, 0, 0]))))
    );
}

#[test]
fn a_stream_has_no_file_header_and_ends_within_an_event_by_an_error() {
    let stream = [DESCRIPTION, COUNTED, COUNTED_XID, &SHORT[..21]].concat();
    let mut input = &stream[..];
    let mut reader = EventStreamReader::new(VERSION);
    let description = reader.read(&mut input).unwrap().unwrap();
    assert_eq!(description.data().len(), 57);
    is_of_5_6_1(reader.get_fde());
    let xid = reader.read(&mut input).unwrap().unwrap();
    assert_eq!(xid.data(), XID_BODY);
    assert_eq!(reader.read(&mut input), Err(Error::EndOfInput));
    assert!(input.is_empty());
    assert_eq!(reader.read(&mut input), Ok(None));
    is_of_5_6_1(reader.get_fde());
}

/// Table maps of the ids 7 and 9, of the table `t`; and one of id 5 whose count of columns is `fb`.
const MAP_OF_7: &[u8] = b"\0\0\0\0\x13\x01\0\0\0\x25\0\0\0\0\0\0\0\0\0\
    \x07\0\0\0\0\0\x01\0\x01d\0\x01t\0\x01\x03\0\x01";
const MAP_OF_9: &[u8] = b"\0\0\0\0\x13\x01\0\0\0\x25\0\0\0\0\0\0\0\0\0\
    \x09\0\0\0\0\0\x01\0\x01d\0\x01t\0\x01\x03\0\x01";
const MAP_OF_FB: &[u8] = b"\0\0\0\0\x13\x01\0\0\0\x25\0\0\0\0\0\0\0\0\0\
    \x05\0\0\0\0\0\x01\0\x01d\0\x01t\0\xfb\x03\0\x01";

/// ROTATE events of the positions 0, 4 and 2^32, without a name.
const FAKE_ROTATE: &[u8] = b"\0\0\0\0\x04\x01\0\0\0\x1b\0\0\0\0\0\0\0\0\0\0\0\0\0\0\0\0\0";
const ROTATE: &[u8] = b"\0\0\0\0\x04\x01\0\0\0\x1b\0\0\0\0\0\0\0\0\0\x04\0\0\0\0\0\0\0";
const FAR_ROTATE: &[u8] = b"\0\0\0\0\x04\x01\0\0\0\x1b\0\0\0\0\0\0\0\0\0\0\0\0\0\x01\0\0\0";

/// The first letters of the tables of the ids 5, 6, 7 and 9.
type Tables = [Option<u8>; 4];

fn tables(reader: &EventStreamReader) -> Tables {
    [5, 6, 7, 9].map(|id| {
        let map = reader.get_tme(id)?;
        assert_eq!((map.table_id(), map.columns_count()), (id, 1));
        map.table_name_raw().first().copied()
    })
}

const NONE: Tables = [None; 4];
const ONE: Tables = [Some(b't'), None, None, None];
const TWO: Tables = [Some(b't'), None, Some(b't'), None];
const NEWEST: Tables = [Some(b'u'), None, Some(b't'), Some(b't')];

/// Events, one behind them, the number of its error or 0, and the tables behind it.
const STATES: [(&[&[u8]], &[u8], u8, Tables); 8] = [
    (&[MAP_OF_9, MAP_OF_T, MAP_OF_7], MAP_OF_U, 0, NEWEST),
    (&[MAP_OF_T, MAP_OF_7], FAKE_ROTATE, 0, TWO),
    (&[MAP_OF_T, MAP_OF_7, FAKE_ROTATE], SHORT_ROTATE, 5, TWO),
    (&[MAP_OF_T, MAP_OF_7], ROTATE, 0, NONE),
    // All eight bytes of the position count.
    (&[MAP_OF_T], FAR_ROTATE, 0, NONE),
    (&[], SHORT_MAP, 5, NONE),
    (&[MAP_OF_T], SHORT_MAP, 5, ONE),
    (&[MAP_OF_T], MAP_OF_FB, 6, ONE),
];

#[test]
fn the_newest_table_map_of_an_id_is_in_force_until_a_rotate() {
    for (events, last, number, wanted) in STATES {
        let mut reader = EventStreamReader::new(VERSION);
        for event in events {
            reader.read(*event).unwrap();
        }
        let found = reader.read(last).map_or_else(|error| error.number(), |_| 0);
        assert_eq!((found, tables(&reader)), (number, wanted));
    }
}

#[test]
fn three_thousand_ids_in_falling_order_are_found() {
    let mut reader = EventStreamReader::new(VERSION);
    for id in (0..3000_u16).rev() {
        let mut map = MAP_OF_T.to_vec();
        map[19..21].copy_from_slice(&id.to_le_bytes());
        reader.read(&map[..]).unwrap();
    }
    for id in 0..3000 {
        assert_eq!(reader.get_tme(id).map(|map| map.table_id()), Some(id));
    }
    assert!(reader.get_tme(3000).is_none());
}
