//! The items of a file: owned, borrowed, and those that the file stands at.

use std::io::BufRead;

use binlog::consts::EventType;
use binlog::events::WriteRowsEventV1;
use binlog::{BinlogFile, BinlogSlice, Error};

use crate::bytes::*;
use crate::{Item, VERSION, seen, seen_owned};

/// Events under the default description and under another, and each error of a whole event.
const PARTS: [&[u8]; 10] = [
    FILE_HEADER,
    PLAIN_XID,
    SHORT_ROTATE,
    DESCRIPTION,
    COUNTED,
    COUNTED_XID,
    REFUSED_DESCRIPTION,
    COUNTED,
    SHORT,
    COUNTED_XID,
];

const ITEMS: [Item; 7] = [
    Ok((16, 8, None)),
    Err(5),
    Ok((15, 57, Some([77, 0, 0, 0]))),
    Ok((16, 8, Some([27, 0, 0, 0]))),
    Err(6),
    Err(4),
    Ok((16, 8, Some([27, 0, 0, 0]))),
];

#[test]
fn borrowed_and_owned_events_are_the_same_and_may_take_turns() {
    let log = PARTS.concat();
    let mut borrowing = BinlogFile::new(VERSION, &log[..]).unwrap();
    let mut taking_turns = BinlogFile::new(VERSION, &log[..]).unwrap();
    for (index, item) in ITEMS.into_iter().enumerate() {
        assert_eq!(borrowing.next_ref().map(seen), Some(item));
        let turn = if index % 2 == 0 {
            taking_turns.next().map(seen_owned)
        } else {
            taking_turns.next_ref().map(seen)
        };
        assert_eq!(turn, Some(item));
    }
    assert!(borrowing.next_ref().is_none() && taking_turns.next().is_none());
    let slice = BinlogSlice::new(VERSION, &log).unwrap();
    assert!(slice.map(seen).eq(ITEMS));
}

/// The header of an event of type 3 and 300,000 bytes, and of one of 8 MiB and 20 bytes.
const LONG_HEADER: &[u8] = b"\0\0\0\0\x03\x01\0\0\0\xe0\x93\x04\0\0\0\0\0\0\0";
const LARGE_HEADER: &[u8] = b"\0\0\0\0\x03\x01\0\0\0\x14\0\x80\0\0\0\0\0\0\0";

#[test]
fn an_event_may_be_longer_than_the_buffer() {
    for (header, size) in [(LONG_HEADER, 300_000), (LARGE_HEADER, 8_388_628)] {
        let event = [header, &vec![7; size - header.len()]].concat();
        let log = [FILE_HEADER, &event, PLAIN_XID, &event, PLAIN_XID].concat();
        let long = Ok((3, size - header.len(), None));
        let items = [long, Ok((16, 8, None)), long, Ok((16, 8, None))];
        let mut file = BinlogFile::new(VERSION, &log[..]).unwrap();
        for item in items {
            assert_eq!(file.next_ref().map(seen), Some(item));
        }
        let file = BinlogFile::new(VERSION, &log[..]).unwrap();
        assert!(file.items().map(seen_owned).eq(items));
    }
}

/// The type of the event that a file stands at.
fn standing<R: BufRead>(file: &BinlogFile<R>) -> Option<u8> {
    Some(file.event()?.header().event_type_raw())
}

#[test]
fn a_file_stands_at_an_event_that_it_went_to() {
    let log = [FILE_HEADER, PLAIN_XID, SHORT_MAP, PLAIN_XID].concat();
    let mut file = BinlogFile::new(VERSION, &log[..]).unwrap();
    assert_eq!(standing(&file), None);
    for (answer, kind) in [
        (Some(Ok(())), Some(16)),
        (Some(Err(Error::EndOfBody)), None),
        (Some(Ok(())), Some(16)),
        (None, None),
        (None, None),
    ] {
        assert_eq!(file.advance(), answer);
        assert_eq!(standing(&file), kind);
    }
}

#[test]
fn next_hands_its_event_over() {
    let log = [FILE_HEADER, PLAIN_XID, MAP_OF_T].concat();
    let mut file = BinlogFile::new(VERSION, &log[..]).unwrap();
    assert!(matches!(file.next_ref(), Some(Ok(_))));
    assert_eq!(standing(&file), Some(16));
    assert!(matches!(file.next(), Some(Ok(_))));
    assert_eq!(standing(&file), None);
}

/// One row for the table of id 5, and one for that of id 7. The row is the number 1.
const ROWS_OF_5: &[u8] = b"\0\0\0\0\x17\x01\0\0\0\x22\0\0\0\0\0\0\0\0\0\
    \x05\0\0\0\0\0\x01\0\x01\x01\0\x01\0\0\0";
const ROWS_OF_7: &[u8] = b"\0\0\0\0\x17\x01\0\0\0\x22\0\0\0\0\0\0\0\0\0\
    \x07\0\0\0\0\0\x01\0\x01\x01\0\x01\0\0\0";

#[test]
fn rows_stand_beside_their_table_map() {
    let log = [
        FILE_HEADER,
        MAP_OF_T,
        ROWS_OF_5,
        MAP_OF_U,
        ROWS_OF_5,
        ROWS_OF_7,
    ]
    .concat();
    let mut file = BinlogFile::new(VERSION, &log[..]).unwrap();
    let mut tables = Vec::new();
    while let Some(item) = file.advance() {
        item.unwrap();
        let event = file.event().unwrap();
        if event.header().event_type() == Ok(EventType::WRITE_ROWS_EVENT_V1) {
            let rows: WriteRowsEventV1 = event.read_event().unwrap();
            let map = file.reader().get_tme(rows.table_id());
            tables.push(map.map(|map| map.table_name_raw().to_vec()));
        }
    }
    assert_eq!(tables, [Some(b"t".to_vec()), Some(b"u".to_vec()), None]);
}
