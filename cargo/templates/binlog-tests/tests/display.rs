//! The texts of values, of each type of column, and of GTIDs.
use binlog::GtidTracker;
use binlog::gtid_text::GtidTextError;
use binlog::mariadb::MariaGtid;
use binlog::raw::ParseBuf;
use binlog::values::{CharacterSet, Column, ColumnFacts, Value};
use std::fmt::Display;

/// The value at the start of these bytes, in a column of this type and metadata.
fn value<'a>(number: u8, metadata: &[u8], bytes: &'a [u8]) -> Value<'a> {
    let column = Column::read(number, &mut ParseBuf(metadata)).unwrap();
    Value::read(&column, &mut ParseBuf(bytes)).unwrap()
}

/// What a value holds whose type has a text of its own.
fn content(value: Value<'_>) -> Box<dyn Display + '_> {
    match value {
        Value::Float(float) => Box::new(float),
        Value::Double(double) => Box::new(double),
        Value::Decimal(decimal) => Box::new(decimal),
        Value::Date(date) => Box::new(date),
        Value::Year(year) => Box::new(year),
        Value::Time(time) => Box::new(time),
        Value::DateTime(time) => Box::new(time),
        Value::Timestamp2(time) => Box::new(time),
        Value::DateTime2(time) => Box::new(time),
        Value::Time2(time) => Box::new(time),
        _ => panic!("{value:?} has no text of its own"),
    }
}

#[test]
fn numbers_are_the_same_by_themselves_and_as_values() {
    let double = |number: f64| number.to_bits().to_le_bytes();
    for (number, metadata, bytes, text) in [
        (4, &b"\x04"[..], &b"\xcd\xcc\xcc\x3d"[..], "0.1"),
        (4, b"\x04", b"\x00\x00\x80\x7f", "null"),
        (5, b"\x08", &double(-0.0), "-0.0"),
        (5, b"\x08", &double(1e300), "1e300"),
        (5, b"\x08", &double(f64::NAN), "null"),
        (13, b"", b"\x7e", "2026"),
        (13, b"", b"\0", "0"),
    ] {
        let value = value(number, metadata, bytes);
        assert_eq!(value.to_string(), text);
        assert_eq!(content(value).to_string(), text);
    }
}

#[test]
fn texts_have_quotation_marks_as_values() {
    for (number, metadata, bytes, text) in [
        (246, &b"\x05\x02"[..], &b"\x80\x03\x32"[..], "3.50"),
        (246, b"\x0e\x04", b"\x7e\xf2\x04\xc7\x2d\xfb\x2d", "-1234567890.1234"),
        (246, b"\x01\x01", b"\x7f", "-0.0"),
        (246, b"\x13\x09", b"\x7f\xff\xff\xff\xff\xff\xff\xff\xfe", "-0.000000001"),
        (
            246,
            b"\x26\x0a",
            b"\x80\0\0\0\0\0\0\0\x05\0\0\0\0\0\0\0\x05\x01",
            "5000000000.0000000051",
        ),
        (
            246,
            b"\x41\x1e",
            b"\x85\xf5\xe0\xff\x3b\x9a\xc9\xff\x3b\x9a\xc9\xff\x3b\x9a\xc9\xff\x3b\x9a\xc9\xff\x3b\x9a\xc9\xff\x3b\x9a\xc9\xff\x03\xe7",
            "99999999999999999999999999999999999.999999999999999999999999999999",
        ),
        (10, b"", b"\x79\xd5\x0f", "2026-11-25"),
        (10, b"", b"\0\0\0", "0000-00-00"),
        (11, b"", b"\x59\x0a\x80", "-838:59:59"),
        (19, b"\x02", b"\x7f\xff\xff\xff", "-00:00:00.01"),
        (12, b"", &20_261_125_063_000u64.to_le_bytes(), "2026-11-25 06:30:00"),
        (18, b"\0", b"\x99\xbb\x72\x67\x80", "2026-11-25 06:30:00"),
        (17, b"\x06", b"\0\0\0\x01\0\0\xfa", "1970-01-01 00:00:01.000250"),
        (17, b"\x02", b"\0\0\0\0\0", "0000-00-00 00:00:00.00"),
    ] {
        let value = value(number, metadata, bytes);
        assert_eq!(value.to_string(), format!("\"{text}\""));
        assert_eq!(content(value).to_string(), text);
    }
}

#[test]
fn other_values_are_json() {
    for (number, metadata, bytes, json) in [
        (6, &b""[..], &b""[..], "null"),
        (1, b"", b"\xff", "-1"),
        (7, b"", b"\x01\0\0\0", r#""1970-01-01 00:00:01""#),
        (16, b"\x02\x01", b"\x02\x01", "513"),
        (254, b"\xf7\x01", b"\x02", "2"),
        (254, b"\xf8\x01", b"\x05", "5"),
        (15, b"\x0a\0", b"\x03a\"\n", r#""a\"\n""#),
        (15, b"\x0a\0", b"\x02\xc3\xa9", "\"\u{e9}\""),
        (15, b"\x0a\0", b"\x01\xe9", r#"{"hex":"e9"}"#),
        (245, b"\x04", b"\x02\0\0\0\x04\x01", r#"{"json":true}"#),
        (245, b"\x04", b"\x02\0\0\0\x04\x03", r#"{"jsonb":"0403"}"#),
        (255, b"\x04", b"\x01\0\0\0\x07", r#""07""#),
        (242, b"\x01", b"\x04\0\0\x80\x3f", r#""0000803f""#),
        (140, b"\x01", b"\x02\0a", r#"{"stored":"0061"}"#),
    ] {
        assert_eq!(value(number, metadata, bytes).to_string(), json);
    }
}

#[test]
fn facts_of_the_column_count() {
    let unsigned = ColumnFacts { is_unsigned: true, ..ColumnFacts::default() };
    assert_eq!(value(1, b"", b"\xff").display(&unsigned).to_string(), "255");
    let binary = ColumnFacts { character_set: Some(CharacterSet::Binary), padded_length: 4, ..ColumnFacts::default() };
    assert_eq!(value(254, b"\xfe\x04", b"\x02ab").display(&binary).to_string(), r#""61620000""#);
    let members = ColumnFacts { members: Some(vec![b"red", b"blue"]), ..ColumnFacts::default() };
    assert_eq!(value(254, b"\xf7\x01", b"\x02").display(&members).to_string(), r#""blue""#);
    assert_eq!(value(254, b"\xf8\x01", b"\x03").display(&members).to_string(), r#""red,blue""#);
}

#[test]
fn texts_are_padded_as_texts_and_numbers_as_numbers() {
    let date = value(10, b"", b"\x79\xd5\x0f");
    assert_eq!(format!("{:12}|{date:>14}", content(date)), "2026-11-25  |  \"2026-11-25\"");
    let decimal = value(246, b"\x05\x02", b"\x80\x03\x32");
    assert_eq!(format!("{:7}|{:+07}", content(decimal), content(decimal)), "   3.50|+003.50");
}

#[test]
fn sets_of_gtids_are_equal_if_they_have_the_same() -> Result<(), GtidTextError> {
    let sid = "3e11fa47-71ca-11e1-9e33-c80aa9429562";
    let set: GtidTracker = format!("{sid}:1-5:7:tag:1").parse()?;
    assert_eq!(set.to_string(), format!("{sid}:1-5:7:tag:1"));
    assert_eq!(format!("{:>48}", format!("{sid}:1").parse::<GtidTracker>()?), format!("{sid:>46}:1"));
    assert_eq!(GtidTracker::new().to_string(), "");
    let others = [format!("{sid}:tag:1,{sid}:7:3-5:1-3:5-4"), format!(" {}:1-5 : 7:tag:1", sid.to_uppercase())];
    for other in others {
        assert_eq!(set, other.parse()?);
    }
    let others = ["", ":1-5:7:tag:1-2", ":1-5:7:tags:1", ":1-5:7:1", ":1-4:7:tag:1", ":tag:1"];
    for other in others {
        assert_ne!(set, format!("{sid}{other}").parse()?);
    }
    assert_ne!(set, set.to_string().replace('3', "4").parse()?);
    Ok(())
}

#[test]
fn gtids_of_mariadb() {
    assert_eq!(format!("{:<24}|", MariaGtid::new(u32::MAX, 0, 1)), "4294967295-0-1          |");
}
