//! Documents of JSON columns as `serde_json` has them, with the feature of this name.
#![cfg(feature = "serde_json")]

use binlog::jsonb::{Document, DocumentError, JsonWriteError, OwnedDocument, Value as JsonValue};
use binlog::raw::ParseBuf;
use binlog::values::{Column, Value};
use serde_json::json;

fn value(bytes: &[u8]) -> Result<serde_json::Value, DocumentError> {
    serde_json::Value::try_from(&Document::read(bytes).unwrap())
}

/// A document that is one opaque value of this column type.
fn opaque(column: u8, bytes: &[u8]) -> Vec<u8> {
    [&[15, column, bytes.len() as u8][..], bytes].concat()
}

#[test]
fn documents_are_values() {
    for (bytes, wanted) in [
        (&b"\x04\0"[..], json!(null)),
        (b"\x04\x01", json!(true)),
        (b"\x05\xfe\xff", json!(-2)),
        (b"\x0a\xff\xff\xff\xff\xff\xff\xff\xff", json!(u64::MAX)),
        (b"\x0c\x03a\xc3\xa9", json!("a\u{e9}")),
        (b"\x02\x01\0\x07\0\x04\x01\0", json!([true])),
        (b"\0\x01\0\x13\0\x0b\0\x01\0\x02\x0c\0a\x01\0\x07\0\x04\x01\0", json!({"a": [true]})),
    ] {
        assert_eq!(value(bytes).unwrap(), wanted);
    }
}

// The shortest digits of a double are read back as the same one.
#[test]
fn doubles_are_the_same() {
    for number in [0.1, -0.0, 1e22, 5e-324, f64::MAX, 1.0 / 3.0, 123_456_789.123_456_79] {
        let bytes = [&b"\x0b"[..], &number.to_le_bytes()].concat();
        let found = value(&bytes).unwrap().as_f64().unwrap();
        assert_eq!(found.to_bits(), number.to_bits(), "{number}");
    }
}

// DECIMAL(5,2) 3.50, and a value of the type 16 with the byte 1.
#[test]
fn opaque_values_are_numbers_and_strings() {
    assert_eq!(value(&opaque(246, b"\x05\x02\x80\x03\x32")).unwrap(), json!(3.5));
    assert_eq!(value(&opaque(16, b"\x01")).unwrap(), json!("base64:type16:AQ=="));
}

#[test]
fn what_has_no_text_is_no_value() {
    assert!(matches!(value(b"\x0c\x01\xff"), Err(DocumentError::NoText)));
    let infinite = [&b"\x0b"[..], &f64::INFINITY.to_le_bytes()].concat();
    assert!(matches!(value(&infinite), Err(DocumentError::NoText)));
}

// The value of a JSON column, with its length in four bytes.
#[test]
fn a_column_of_documents() {
    let column = Column::read(245, &mut ParseBuf(b"\x04")).unwrap();
    let read = Value::read(&column, &mut ParseBuf(b"\x02\0\0\0\x04\x01")).unwrap();
    let document = read.document().unwrap().unwrap();
    assert_eq!(serde_json::Value::try_from(&document).unwrap(), json!(true));
}

// A value within a document.
#[test]
fn parts_of_documents_are_values() {
    let document = Document::read(b"\0\x01\0\x13\0\x0b\0\x01\0\x02\x0c\0a\x01\0\x07\0\x04\x01\0").unwrap();
    let JsonValue::Object(members) = document.value() else {
        panic!("{document:?}");
    };
    let part = members.get("a").unwrap();
    assert_eq!(serde_json::Value::try_from(&part).unwrap(), json!([true]));
}

/// The bytes of the document of a value.
fn built(value: &serde_json::Value) -> Vec<u8> {
    OwnedDocument::try_from(value).unwrap().into_bytes()
}

#[test]
fn values_are_documents() {
    assert_eq!(built(&json!(null)), b"\x04\0");
    assert_eq!(built(&json!("a\u{e9}")), b"\x0c\x03a\xc3\xa9");
    assert_eq!(built(&json!(-0.5)), b"\x0b\0\0\0\0\0\0\xe0\xbf");
    assert_eq!(built(&json!([true])), b"\x02\x01\0\x07\0\x04\x01\0");
    // Shorter keys come first.
    let both = b"\0\x02\0\x15\0\x12\0\x01\0\x13\0\x02\0\x04\0\0\x04\x01\0baa";
    assert_eq!(built(&json!({"aa": true, "b": null})), both);
}

// Signed ones below 2^32, and unsigned ones from there on.
#[test]
fn integers_have_the_types_of_servers() {
    for (number, bytes) in [
        (json!(-2), &b"\x05\xfe\xff"[..]),
        (json!(65_535), b"\x07\xff\xff\0\0"),
        (json!(u32::MAX), b"\x09\xff\xff\xff\xff\0\0\0\0"),
        (json!(1u64 << 32), b"\x0a\0\0\0\0\x01\0\0\0"),
        (json!(i64::MIN), b"\x09\0\0\0\0\0\0\0\x80"),
    ] {
        assert_eq!(built(&number), bytes, "{number}");
    }
}

#[test]
fn values_that_are_no_documents() {
    let nested = (0..101).fold(json!(null), |value, _| json!([value]));
    assert_eq!(OwnedDocument::try_from(&nested).unwrap_err(), JsonWriteError::TooDeep);
    assert!(OwnedDocument::try_from(&nested[0]).is_ok());
    let key = "k".repeat(65_536);
    assert_eq!(OwnedDocument::try_from(&json!({key: null})).unwrap_err(), JsonWriteError::KeyTooLong);
}
