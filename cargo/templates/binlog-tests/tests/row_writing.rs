//! Rows that are made from values: their bytes, worked by hand, and their refusals.

use binlog::consts::BinlogVersion;
use binlog::events::{BinlogEventHeader, TableMapEvent, UpdateRowsEvent};
use binlog::raw::BitView;
use binlog::row_writing::{NewDate, NewDecimal, NewTime, NewValue, RowWriteError};
use binlog::row_writing::{RowWriteErrorKind, RowsBuilder};
use binlog::values::{ColumnValue, ImageKind, RowsEventExt, TableColumns, Value};
use binlog::{BinlogCtx, BinlogEvent, DescriptionRef, read_body};

/// The types and the metadata of a table's columns.
type Table<'a> = (&'a [u8], &'a [u8]);

/// Two TINY columns.
const TINIES: Table<'_> = (b"\x01\x01", b"");

/// Two TINY columns and a VARCHAR of at most ten bytes.
const TABLE: Table<'_> = (b"\x01\x01\x0f", b"\x0a\0");

/// The bitmap of a table of at most eight columns, all of which are present.
const ALL: &[u8] = &[0xff];

const MIDNIGHT: NewTime = NewTime {
    hour: 0,
    minute: 0,
    second: 0,
    microsecond: 0,
};

/// 06:30:00.
const MORNING: NewTime = NewTime {
    hour: 6,
    minute: 30,
    ..MIDNIGHT
};

/// 838:59:59.
const LONGEST: NewTime = NewTime {
    hour: 838,
    minute: 59,
    second: 59,
    ..MIDNIGHT
};

/// 2026-11-25.
const DAY: NewDate = NewDate {
    year: 2026,
    month: 11,
    day: 25,
};

/// A time with these microseconds.
const fn after(time: NewTime, microsecond: u32) -> NewTime {
    NewTime {
        microsecond,
        ..time
    }
}

const fn negative(time: NewTime) -> NewValue<'static> {
    NewValue::Time {
        is_negative: true,
        time,
    }
}

fn columns(table: Table<'_>) -> TableColumns<'_> {
    TableColumns::new(table.0, table.1).unwrap()
}

fn bits<'a>(present: &'a [u8], table: Table<'a>) -> BitView<'a> {
    BitView::new(present, table.0.len() as u64).unwrap()
}

/// The bytes of an inserted row; a refused row leaves none.
fn inserted(
    table: Table<'_>,
    present: &[u8],
    values: &[NewValue<'_>],
) -> Result<Vec<u8>, RowWriteError> {
    let mut rows = RowsBuilder::insert(columns(table), bits(present, table)).unwrap();
    let answer = rows.push_row(None, Some(values));
    assert!(answer.is_ok() || rows.rows_data().is_empty());
    answer.map(|()| rows.rows_data().to_vec())
}

/// The refusal of a column of the image after.
fn of_column(kind: RowWriteErrorKind, column: Option<u64>) -> RowWriteError {
    RowWriteError {
        kind,
        image: Some(ImageKind::After),
        column,
    }
}

/// The refusal of a row.
fn of_row(kind: RowWriteErrorKind) -> RowWriteError {
    RowWriteError {
        kind,
        image: None,
        column: None,
    }
}

fn read<'a, T: BinlogEvent<'a>>(body: &'a [u8]) -> T {
    let size = BinlogEventHeader::LEN + body.len();
    let description = DescriptionRef::new(BinlogVersion::Version4);
    let number = u8::from(T::EVENT_TYPE);
    read_body(BinlogCtx::new(size, description, number), body).unwrap()
}

// A null bitmap comes first, whose spare bits are set.
#[test]
fn nulls_and_absent_columns_have_no_bytes() {
    let row = [
        NewValue::Unsigned(5),
        NewValue::Null,
        NewValue::Bytes(b"abc"),
    ];
    assert_eq!(inserted(TABLE, ALL, &row).unwrap(), b"\xfa\x05\x03abc");
    // Null bits are of present columns.
    let row = [NewValue::Unsigned(7), NewValue::Null];
    assert_eq!(inserted(TABLE, &[5], &row).unwrap(), b"\xfe\x07");
    // Nine columns have two bytes of null bits.
    let mut row = [NewValue::Null; 9];
    for number in 2..8 {
        row[number as usize - 1] = NewValue::Unsigned(number);
    }
    let nine = (&[1; 9][..], &b""[..]);
    assert_eq!(
        inserted(nine, &[0xff, 0xff], &row).unwrap(),
        b"\x81\xff\x02\x03\x04\x05\x06\x07"
    );
}

#[test]
fn numbers() {
    let integers = [
        NewValue::Signed(-128),
        NewValue::Unsigned(65_535),
        NewValue::Signed(-1),
        NewValue::Signed(-2_147_483_648),
        NewValue::Signed(i64::MIN),
    ];
    assert_eq!(
        inserted((b"\x01\x02\x09\x03\x08", b""), ALL, &integers).unwrap(),
        b"\xe0\x80\xff\xff\xff\xff\xff\0\0\0\x80\0\0\0\0\0\0\0\x80"
    );
    let floats_and_bits = [
        NewValue::Float(0x3fc0_0000),
        NewValue::Double(1 << 63),
        NewValue::Bit(1),
        NewValue::Bit((1 << 63) + 1),
    ];
    let table = (&b"\x04\x05\x10\x10"[..], &b"\x04\x08\x01\0\0\x08"[..]);
    assert_eq!(
        inserted(table, ALL, &floats_and_bits).unwrap(),
        b"\xf0\0\0\xc0\x3f\0\0\0\0\0\0\0\x80\x01\x80\0\0\0\0\0\0\x01"
    );
}

#[test]
fn dates_and_times_without_fractions() {
    let row = [
        NewValue::Date(DAY),
        NewValue::Year(2155),
        NewValue::Year(0),
        NewValue::Timestamp {
            seconds: (1 << 32) - 1,
            microseconds: 0,
        },
        negative(LONGEST),
        NewValue::DateTime {
            date: DAY,
            time: MORNING,
        },
    ];
    assert_eq!(
        inserted((b"\x0a\x0d\x0d\x07\x0b\x0c", b""), ALL, &row).unwrap(),
        b"\xc0\x79\xd5\x0f\xff\0\xff\xff\xff\xff\x59\x0a\x80\x58\x81\x29\x69\x6d\x12\0\0"
    );
}

#[test]
fn dates_and_times_with_fractions() {
    let row = [
        NewValue::Timestamp {
            seconds: 1,
            microseconds: 990_000,
        },
        NewValue::DateTime {
            date: DAY,
            time: after(MORNING, 250),
        },
        negative(LONGEST),
        negative(after(MIDNIGHT, 10_000)),
        negative(after(LONGEST, 1)),
    ];
    let table = (&b"\x11\x12\x13\x13\x13"[..], &b"\x02\x06\x00\x02\x06"[..]);
    assert_eq!(
        inserted(table, ALL, &row).unwrap(),
        b"\xe0\0\0\0\x01\x63\x99\xbb\x72\x67\x80\0\0\xfa\x4b\x91\x05\x7f\xff\xff\xff\x4b\x91\x04\xff\xff\xff"
    );
}

#[test]
fn strings_and_other_bytes() {
    let strings = ["ab", "ab", "ab", "", "c", "d"].map(|text| NewValue::Bytes(text.as_bytes()));
    let table = (
        &b"\x0f\x0f\xfe\xfe\xfc\xfc"[..],
        &b"\xff\0\0\x01\xce\xfc\xfe\xff\x01\x04"[..],
    );
    assert_eq!(
        inserted(table, ALL, &strings).unwrap(),
        b"\xc0\x02ab\x02\0ab\x02\0ab\0\x01c\x01\0\0\0d"
    );
    let others = [
        NewValue::Json(b"\x04\x01"),
        NewValue::Geometry(b"\0\0\0\0\x01"),
        NewValue::Vector(b"\0\0\x80\x3f"),
        NewValue::Compressed(b"\0a"),
        NewValue::Compressed(b""),
    ];
    let table = (&b"\xf5\xff\xf2\x8c\x8d"[..], &b"\x04\x04\x04\x01\x0a\0"[..]);
    assert_eq!(
        inserted(table, ALL, &others).unwrap(),
        b"\xe0\x02\0\0\0\x04\x01\x05\0\0\0\0\0\0\0\x01\x04\0\0\0\0\0\x80\x3f\x02\0a\0"
    );
}

#[test]
fn members() {
    let row = [
        NewValue::Enum(256),
        NewValue::Set(u64::MAX),
        NewValue::Enum(255),
        NewValue::Set(0),
    ];
    let table = (
        &b"\xfe\xfe\xf7\xf8"[..],
        &b"\xf7\x02\xf8\x08\xf7\x01\xf8\x01"[..],
    );
    assert_eq!(
        inserted(table, ALL, &row).unwrap(),
        b"\xf0\0\x01\xff\xff\xff\xff\xff\xff\xff\xff\xff\0"
    );
}

#[test]
fn decimals() {
    let fourteen = [1, 2, 3, 4, 5, 6, 7, 8, 9, 0, 1, 2, 3, 4];
    for (precision, scale, is_negative, digits, wanted) in [
        (
            14,
            4,
            false,
            &fourteen[..],
            &b"\xfe\x81\x0d\xfb\x38\xd2\x04\xd2"[..],
        ),
        (14, 4, true, &fourteen, b"\xfe\x7e\xf2\x04\xc7\x2d\xfb\x2d"),
        (1, 1, false, &[9], b"\xfe\x89"),
        (1, 1, true, &[9], b"\xfe\x76"),
        (4, 2, false, &[5], b"\xfe\x80\x05"),
        (
            65,
            30,
            true,
            &[9; 65],
            b"\xfe\x7a\x0a\x1f\0\xc4\x65\x36\0\xc4\x65\x36\0\xc4\x65\x36\0\xc4\x65\x36\0\xc4\x65\x36\0\xc4\x65\x36\0\xfc\x18",
        ),
    ] {
        let number = NewDecimal::new(precision, scale, is_negative, digits).unwrap();
        let row = [NewValue::Decimal(&number)];
        let table = (&b"\xf6"[..], &[precision, scale][..]);
        assert_eq!(inserted(table, ALL, &row).unwrap(), wanted);
    }
}

// The length is in one byte or in two.
#[test]
fn the_greatest_length_decides_on_the_prefix() {
    let text = [b'a'; 255];
    for (metadata, head) in [(b"\xff\0", &b"\xfe\xff"[..]), (b"\0\x01", b"\xfe\xff\0")] {
        let row = inserted((b"\x0f", metadata), ALL, &[NewValue::Bytes(&text)]);
        assert_eq!(row.unwrap(), [head, &text].concat());
    }
}

#[test]
fn the_first_fault_is_told() {
    let empty = NewValue::Bytes(b"");
    for (row, kind, column) in [
        // Each present column has a value.
        (&[empty][..], RowWriteErrorKind::WrongCount, None),
        (
            &[NewValue::Null, empty],
            RowWriteErrorKind::WrongType,
            Some(1),
        ),
        (
            &[NewValue::Unsigned(256), empty],
            RowWriteErrorKind::OutOfRange,
            Some(0),
        ),
    ] {
        assert_eq!(inserted(TINIES, ALL, row), Err(of_column(kind, column)));
    }
}

#[test]
fn values_fit_their_columns() {
    let twentieth = NewValue::Time {
        is_negative: false,
        time: after(MIDNIGHT, 50_000),
    };
    let thirteenth = NewValue::DateTime {
        date: NewDate { month: 13, ..DAY },
        time: MIDNIGHT,
    };
    let second = NewValue::Timestamp {
        seconds: 1,
        microseconds: 1_000_000,
    };
    let too_large: [(&[u8], &[u8], NewValue<'_>); 16] = [
        // Numbers.
        (b"\x01", b"", NewValue::Signed(-129)),
        (b"\x01", b"", NewValue::Signed(128)),
        (b"\x09", b"", NewValue::Unsigned(1 << 24)),
        (b"\x10", b"\x01\0", NewValue::Bit(2)),
        (b"\xfe", b"\xf7\x01", NewValue::Enum(256)),
        (b"\xfe", b"\xf8\x01", NewValue::Set(256)),
        (b"\x0d", b"", NewValue::Year(1900)),
        (b"\x0d", b"", NewValue::Year(2156)),
        // Lengths.
        (b"\x0f", b"\x02\0", NewValue::Bytes(b"abc")),
        (b"\xfc", b"\x01", NewValue::Bytes(&[0; 256])),
        (b"\xf2", b"\x04", NewValue::Vector(b"abc")),
        // Fractions have no more digits than their columns.
        (b"\x13", b"\x01", twentieth),
        (b"\x0b", b"", twentieth),
        (b"\x11", b"\x06", second),
        // Parts of times fit their bits: a zero below zero, and a day of a thirteenth month.
        (b"\x13", b"\0", negative(MIDNIGHT)),
        (b"\x12", b"\0", thirteenth),
    ];
    let refusal = of_column(RowWriteErrorKind::OutOfRange, Some(0));
    for (number, metadata, value) in too_large {
        assert_eq!(inserted((number, metadata), ALL, &[value]), Err(refusal));
    }
}

#[test]
fn decimals_have_digits_and_no_more_than_their_precision() {
    for (precision, scale, digits) in [
        (2, 1, &[1, 2, 3][..]),
        (2, 1, &[10]),
        (2, 3, &[]),
        (0, 0, &[]),
        (66, 0, &[]),
    ] {
        let refusal = NewDecimal::new(precision, scale, false, digits).err();
        assert_eq!(refusal, Some(RowWriteErrorKind::OutOfRange));
    }
}

#[test]
fn decimals_are_of_their_columns() {
    let number = NewDecimal::new(4, 2, false, &[5]).unwrap();
    let row = inserted((b"\xf6", b"\x05\x02"), ALL, &[NewValue::Decimal(&number)]);
    let refusal = of_column(RowWriteErrorKind::OutOfRange, Some(0));
    assert_eq!(row, Err(refusal));
}

#[test]
fn rows_that_are_deleted_have_no_image_after() {
    for present in [1, 0] {
        let present = [present];
        let mut rows = RowsBuilder::delete(columns(TINIES), bits(&present, TINIES)).unwrap();
        let values = [NewValue::Unsigned(1)];
        let refusal = rows.push_row(Some(&values), Some(&values)).err();
        assert_eq!(refusal, Some(of_row(RowWriteErrorKind::WrongImages)));
    }
}

#[test]
fn some_column_is_present() {
    let refusal = of_row(RowWriteErrorKind::NoColumns);
    assert_eq!(inserted(TINIES, &[0xfc], &[]), Err(refusal));
}

// The first two columns are present before, the last two after. A refused row changes nothing.
#[test]
fn updated_rows_are_written_and_read_back() {
    let images = (bits(&[3], TABLE), bits(&[6], TABLE));
    let mut rows = RowsBuilder::update(columns(TABLE), images.0, images.1).unwrap();
    let before = [NewValue::Unsigned(1), NewValue::Signed(-1)];
    let after = [NewValue::Null, NewValue::Bytes(b"ab")];
    rows.push_row(Some(&before), Some(&after)).unwrap();
    assert!(rows.push_row(Some(&[]), Some(&after)).is_err());
    rows.push_row(Some(&before), Some(&after)).unwrap();
    assert_eq!(
        rows.rows_data(),
        b"\xfc\x01\xff\xfd\x02ab\xfc\x01\xff\xfd\x02ab"
    );

    let head = b"\x05\0\0\0\0\0\x01\0\x02\0\x03\x03\x06";
    let body = [head, rows.rows_data()].concat();
    let event: UpdateRowsEvent = read(&body);
    let table_map: TableMapEvent =
        read(b"\x05\0\0\0\0\0\x01\0\x01d\0\x01t\0\x03\x01\x01\x0f\x02\x0a\0\x07");
    let second = event.rows(&table_map).unwrap().nth(1).unwrap().unwrap();
    match second.after().unwrap().nth(2) {
        Some(ColumnValue::Value(Value::Bytes(bytes))) => assert_eq!(bytes, b"ab"),
        value => panic!("{value:?}"),
    }
}
