//! Documents of binary JSON that are built: their bytes, worked by hand after MySQL's `json_binary.h`.

use binlog::jsonb::{ArrayBuilder, Document, JsonWriteError, ObjectBuilder, OpaqueValue, OwnedDocument, Value};
use binlog::raw::{BitView, ParseBuf};
use binlog::row_writing::{NewValue, RowsBuilder};
use binlog::values::{self, Column, TableColumns};

/// The column types of opaque values.
const TIMESTAMP: u8 = 7;
const DATE: u8 = 10;
const TIME: u8 = 11;
const DATETIME: u8 = 12;
const BIT: u8 = 16;
const DECIMAL: u8 = 246;

/// -3.50, of the precision 5 and the scale 2.
const NUMBER: &[u8] = b"\x05\x02\x7f\xfc\xcd";

/// 2026-11-25 06:30:00.000250: the year and the month as 13 * 2026 + 11 above 22 bits, the day above 17, the hour above 12, the minute
/// above 6, and the microsecond in 24 bits below.
const MOMENT: i64 = ((13 * 2026 + 11) << 22 | 25 << 17 | 6 << 12 | 30 << 6) << 24 | 250;

/// The document of an opaque value.
fn document(column: u8, bytes: &[u8]) -> OwnedDocument {
    OwnedDocument::opaque(&OpaqueValue::new(column, bytes).unwrap()).unwrap()
}

#[test]
fn opaque_values_are_written() {
    assert_eq!(document(DECIMAL, NUMBER).as_bytes(), b"\x0f\xf6\x05\x05\x02\x7f\xfc\xcd");
    assert_eq!(document(BIT, b"").as_bytes(), b"\x0f\x10\0");
    let moment = MOMENT.to_le_bytes();
    assert_eq!(document(DATETIME, &moment).as_bytes(), [&b"\x0f\x0c\x08"[..], &moment].concat());
}

#[test]
fn opaque_values_keep_their_parts() {
    let moment = MOMENT.to_le_bytes();
    let value = OpaqueValue::new(DATETIME, &moment).unwrap();
    assert_eq!((value.value_type(), value.data()), (DATETIME, &moment[..]));
    assert_eq!(value.packed_time(), Some(MOMENT));
    let moment = value.temporal().unwrap();
    assert_eq!((moment.year(), moment.month(), moment.day()), (2026, 11, 25));
    assert_eq!((moment.hour(), moment.minute(), moment.second(), moment.microseconds()), (6, 30, 0, 250));
    assert!(value.decimal().is_none());
    let number = OpaqueValue::new(DECIMAL, NUMBER).unwrap().decimal().unwrap();
    assert_eq!((number.precision(), number.scale(), number.is_negative()), (5, 2, true));
    assert!(OpaqueValue::new(DECIMAL, NUMBER).unwrap().temporal().is_none());
    // -838:59:58: the hour above 12 bits, with ten bits of its own.
    let hours = (-((838_i64 << 12 | 59 << 6 | 58) << 24)).to_le_bytes();
    let time = OpaqueValue::new(TIME, &hours).unwrap().temporal().unwrap();
    assert_eq!((time.is_negative(), time.hour(), time.minute(), time.second()), (true, 838, 59, 58));
    assert_eq!((time.year(), time.month(), time.day(), time.microseconds()), (0, 0, 0, 0));
}

#[test]
fn bytes_of_another_type_are_refused() {
    // Fewer than two bytes, no precision, a scale above it, one above 38, a precision above 81, a byte too few, and 16 as one digit.
    let decimals = [&b""[..], b"\x05", b"\0\0", b"\x01\x02\x80\0", b"\x51\x27", b"\x52\0", b"\x05\x02\x80\x03", b"\x01\0\x90"];
    assert!(decimals.iter().all(|bytes| OpaqueValue::new(DECIMAL, bytes).is_none()));
    for column in [TIMESTAMP, DATE, TIME, DATETIME] {
        assert!(OpaqueValue::new(column, &[0; 8]).is_some());
        assert!([0, 7, 9].iter().all(|length| OpaqueValue::new(column, &vec![0; *length]).is_none()));
    }
    assert!(OpaqueValue::new(BIT, &[0; 300]).is_some());
}

// An object with a date, a decimal number and an array of both, as it is read again.
#[test]
fn opaque_values_are_parts_of_documents() {
    let moment = MOMENT.to_le_bytes();
    let mut both = ArrayBuilder::new();
    both.push(document(DATE, &moment)).unwrap();
    both.push(document(DECIMAL, NUMBER)).unwrap();
    let mut object = ObjectBuilder::new();
    object.push(b"at", document(TIME, &moment)).unwrap();
    object.push(b"both", both.finish().unwrap()).unwrap();
    assert_eq!(object.push(b"sum", document(DECIMAL, NUMBER)), Err(JsonWriteError::KeyOrder));
    let built = object.finish().unwrap();
    let read = Document::read(built.as_bytes()).unwrap();
    let Value::Object(members) = read.value() else {
        panic!("{read:?}");
    };
    let Some(Value::Opaque(at)) = members.get("at") else {
        panic!("{members:?}");
    };
    assert_eq!((at.value_type(), at.packed_time()), (TIME, Some(MOMENT)));
    let Some(Value::Array(both)) = members.get("both") else {
        panic!("{members:?}");
    };
    let types = both.iter().map(|value| match value {
        Value::Opaque(value) => value.value_type(),
        other => panic!("{other:?}"),
    });
    assert_eq!(types.collect::<Vec<_>>(), [DATE, DECIMAL]);
}

// A row of an INT and a JSON column: the bits of its NULLs, the number, and the document behind its length.
#[test]
fn documents_are_written_into_rows() {
    let columns = TableColumns::new(b"\x03\xf5", b"\x04").unwrap();
    let number = document(DECIMAL, NUMBER);
    let mut rows = RowsBuilder::insert(columns, BitView::new(&[3], 2).unwrap()).unwrap();
    rows.push_row(None, Some(&[NewValue::Signed(1), NewValue::Json(number.as_bytes())])).unwrap();
    let stored = [&b"\x08\0\0\0"[..], number.as_bytes()].concat();
    assert_eq!(rows.rows_data(), [&b"\xfc\x01\0\0\0"[..], &stored].concat());
    let column = Column::read(245, &mut ParseBuf(b"\x04")).unwrap();
    let value = values::Value::read(&column, &mut ParseBuf(&stored)).unwrap();
    let read = value.document().unwrap().unwrap();
    assert!(matches!(read.value(), Value::Opaque(value) if value.data() == NUMBER));
}
