//! What the getters of row events answer, what a visitor of rows is shown, exact decimal numbers, and the fields of optional
//! metadata.

use binlog::consts::{BinlogVersion, RowsEventFlags};
use binlog::events::{BinlogEventHeader, OptionalMetadata, OptionalMetadataField, TableMapEvent};
use binlog::events::{UpdateRowsEvent, WriteRowsEvent};
use binlog::raw::{BitView, ParseBuf};
use binlog::values::{Column, ColumnValue, ColumnVisitor, Decimal, ImageKind, RowsError};
use binlog::values::{RowsErrorKind, RowsEventExt, TableColumns, Value};
use binlog::{BinlogCtx, BinlogEvent, DescriptionRef, read_body};

fn read<'a, T: BinlogEvent<'a>>(body: &'a [u8]) -> T {
    let size = BinlogEventHeader::LEN + body.len();
    let description = DescriptionRef::new(BinlogVersion::Version4);
    let number = u8::from(T::EVENT_TYPE);
    read_body(BinlogCtx::new(size, description, number), body).unwrap()
}

fn bits(view: BitView<'_>) -> [Option<bool>; 3] {
    [0, 1, 2].map(|index| view.bit(index))
}

// A row in table 5: two extra bytes, two columns, both in the before image and the first in the after image.
#[test]
fn updated_rows_have_both_images() {
    let event: UpdateRowsEvent = read(b"\x05\0\0\0\0\0\x01\0\x04\0\xaa\xbb\x02\x03\x01\xff");
    let both = [Some(true), Some(true), None];
    let first = [Some(true), Some(false), None];
    assert_eq!(bits(event.columns_before_image()), both);
    assert_eq!(bits(event.columns_after_image()), first);
    let event = event.event();
    assert_eq!(event.columns_before_image().map(bits), Some(both));
    assert_eq!(event.columns_after_image().map(bits), Some(first));
    assert_eq!((event.table_id(), event.num_columns()), (5, 2));
    assert_eq!(event.flags_raw(), 1);
    assert_eq!(event.flags(), RowsEventFlags::STMT_END);
    assert_eq!(event.extra_data(), Some(&b"\xaa\xbb"[..]));
    assert_eq!(event.rows_data(), b"\xff");
}

/// The table 5: two TINY columns and a VARCHAR of at most ten bytes.
const TABLE: &[u8] = b"\x05\0\0\0\0\0\x01\0\x01d\0\x01t\0\x03\x01\x01\x0f\x02\x0a\0\x07";

/// Writes down what it is shown.
#[derive(Default)]
struct Notes(Vec<(ImageKind, u64, String)>);

impl ColumnVisitor for Notes {
    fn visit_column(&mut self, image: ImageKind, index: u64, value: ColumnValue<'_>) {
        let text = match value {
            ColumnValue::Absent => "absent".to_string(),
            ColumnValue::Null => "null".to_string(),
            ColumnValue::Value(value) => value.to_string(),
            ColumnValue::Diffs(_) => "diffs".to_string(),
        };
        self.0.push((image, index, text));
    }
}

/// The columns of an image, by their indexes from 0 on.
fn image(kind: ImageKind, texts: &[&str]) -> Vec<(ImageKind, u64, String)> {
    let column = |(index, text): (u64, &&str)| (kind, index, text.to_string());
    (0..).zip(texts).map(column).collect()
}

/// The results of the visits up to the end, and what they showed.
fn visits(
    event: &impl RowsEventExt,
) -> Vec<(Result<(), RowsError>, Vec<(ImageKind, u64, String)>)> {
    let table_map: TableMapEvent = read(TABLE);
    let mut rows = event.rows(&table_map).unwrap();
    let mut visits = Vec::new();
    loop {
        let mut notes = Notes::default();
        match rows.visit_next(&mut notes) {
            Some(result) => visits.push((result, notes.0)),
            None => {
                assert!(notes.0.is_empty());
                return visits;
            }
        }
    }
}

#[test]
fn all_columns_of_inserted_rows_are_shown() {
    let event: WriteRowsEvent =
        read(b"\x05\0\0\0\0\0\x01\0\x02\0\x03\x07\x02\x05\x03abc\0\x01\x02\0");
    let rows = [["5", "null", r#""abc""#], ["1", "2", r#""""#]];
    let shown = rows.map(|row| (Ok(()), image(ImageKind::After, &row)));
    assert_eq!(visits(&event), shown);
}

// A string of eleven bytes, and a row after it.
#[test]
fn columns_in_front_of_a_fault_are_shown() {
    let event: WriteRowsEvent =
        read(b"\x05\0\0\0\0\0\x01\0\x02\0\x03\x07\0\x01\x02\x0b01234567890\x07\x07");
    let refusal = RowsError {
        kind: RowsErrorKind::BadValue,
        row: 0,
        image: Some(ImageKind::After),
        column: Some(2),
    };
    let shown = image(ImageKind::After, &["1", "2"]);
    assert_eq!(visits(&event), [(Err(refusal), shown)]);
}

// The first column before, the second after; the last image isn't there.
#[test]
fn both_images_are_shown() {
    let event: UpdateRowsEvent = read(b"\x05\0\0\0\0\0\x01\0\x02\0\x03\x01\x02\0\x05\0\x09\0\x05");
    let before = image(ImageKind::Before, &["5", "absent", "absent"]);
    let after = image(ImageKind::After, &["absent", "9", "absent"]);
    let refusal = RowsError {
        kind: RowsErrorKind::Truncated,
        row: 1,
        image: Some(ImageKind::After),
        column: None,
    };
    let first = (Ok(()), [before.clone(), after].concat());
    assert_eq!(visits(&event), [first, (Err(refusal), before)]);
}

/// A decimal number of this precision and scale.
fn decimal(precision: u8, scale: u8, bytes: &[u8]) -> Decimal<'_> {
    let column = Column::read(246, &mut ParseBuf(&[precision, scale])).unwrap();
    match Value::read(&column, &mut ParseBuf(bytes)) {
        Ok(Value::Decimal(decimal)) => decimal,
        answer => panic!("{answer:?}"),
    }
}

#[test]
fn groups_of_zeros_in_front_are_left_out() {
    let bytes = b"\x80\0\0\0\0\0\0\0\x05\0\0\0\0\0\0\0\x05\x01";
    let groups = decimal(38, 10, bytes).groups();
    assert_eq!((groups.first(), groups.whole()), (5, &[0][..]));
    assert_eq!((groups.part(), groups.last()), (&[5][..], 1));
}

#[test]
fn the_exact_integer_has_all_digits_and_the_sign() {
    for (precision, scale, bytes, wanted, is_negative) in [
        (
            14,
            4,
            &b"\x81\x0d\xfb\x38\xd2\x04\xd2"[..],
            Some(12_345_678_901_234),
            false,
        ),
        (
            14,
            4,
            b"\x7e\xf2\x04\xc7\x2d\xfb\x2d",
            Some(-12_345_678_901_234),
            true,
        ),
        (1, 1, b"\x89", Some(9), false),
        (1, 1, b"\x7f", Some(0), true),
        (11, 10, b"\x81\0\0\0\x05\x01", Some(10_000_000_051), false),
        // 2^127 - 1, its negative, and 2^127: an exact integer is below that.
        (
            39,
            0,
            b"\x80\xaa\x08\x6a\x49\xe4\x1b\xf7\xe8\x73\x28\xf7\x6c\x23\x34\xb2\x61\xff",
            Some(i128::MAX),
            false,
        ),
        (
            39,
            0,
            b"\x7f\x55\xf7\x95\xb6\x1b\xe4\x08\x17\x8c\xd7\x08\x93\xdc\xcb\x4d\x9e\x00",
            Some(-i128::MAX),
            true,
        ),
        (
            39,
            0,
            b"\x80\xaa\x08\x6a\x49\xe4\x1b\xf7\xe8\x73\x28\xf7\x6c\x23\x34\xb2\x62\x00",
            None,
            false,
        ),
        // 10^65 - 1.
        (
            65,
            30,
            b"\x85\xf5\xe0\xff\x3b\x9a\xc9\xff\x3b\x9a\xc9\xff\x3b\x9a\xc9\xff\x3b\x9a\xc9\xff\x3b\x9a\xc9\xff\x3b\x9a\xc9\xff\x03\xe7",
            None,
            false,
        ),
    ] {
        let decimal = decimal(precision, scale, bytes);
        assert_eq!(decimal.unscaled(), wanted);
        assert_eq!(decimal.is_negative(), is_negative);
    }
}

/// TINY, VARCHAR of at most ten bytes, YEAR, and an ENUM of one byte: the first and the third are numeric.
fn numeric_columns() -> TableColumns<'static> {
    TableColumns::new(b"\x01\x0f\x0d\xfe", b"\x0a\0\xf7\x01").unwrap()
}

/// VARCHAR of at most ten bytes, an ENUM and a SET of one byte each, and BLOB: two columns with a collation, and two with
/// members.
fn named_columns() -> TableColumns<'static> {
    TableColumns::new(b"\x0f\xfe\xfe\xfc", b"\x0a\0\xf7\x01\xf8\x01\x02").unwrap()
}

/// The first field of the optional metadata.
fn first_field(bytes: &[u8]) -> OptionalMetadataField<'_> {
    let mut fields = OptionalMetadata::new(named_columns(), bytes, false);
    fields.next().unwrap().unwrap()
}

#[test]
fn the_first_column_has_the_top_bit() {
    let mut fields = OptionalMetadata::new(numeric_columns(), b"\x01\x01\x40", false);
    match fields.next() {
        Some(Ok(OptionalMetadataField::Signedness(signs))) => {
            let bits = [0, 1, 2].map(|index| signs.bit(index));
            assert_eq!(bits, [Some(false), Some(true), None]);
        }
        field => panic!("{field:?}"),
    }
}

#[test]
fn fields_follow_a_refused_one_but_not_one_without_an_end() {
    for (bytes, wanted) in [
        // The collations are cut off between the bits and the names.
        (
            &b"\x01\x01\x80\x03\0\x04\x08\x01a\x01b\x01c\x01d"[..],
            &[true, false, true][..],
        ),
        // The first field is longer than the bytes that are left.
        (b"\x03\x09\x3f\x01\x01\x80", &[false]),
    ] {
        let fields = OptionalMetadata::new(numeric_columns(), bytes, false);
        let are_read: Vec<_> = fields.map(|field| field.is_ok()).collect();
        assert_eq!(are_read, wanted);
    }
}

#[test]
fn keys_name_their_columns() {
    match first_field(b"\x08\x02\x03\x01") {
        OptionalMetadataField::SimplePrimaryKey(columns) => {
            assert_eq!(columns.collect::<Vec<_>>(), [3, 1]);
        }
        field => panic!("{field:?}"),
    }
    match first_field(b"\x09\x06\x00\xfc\x00\x01\x03\x00") {
        OptionalMetadataField::PrimaryKeyWithPrefix(prefixes) => {
            assert_eq!(prefixes.collect::<Vec<_>>(), [(0, 256), (3, 0)]);
        }
        field => panic!("{field:?}"),
    }
}

#[test]
fn collations_have_a_default() {
    match first_field(b"\x02\x05\x21\x01\xfc\xff\x00") {
        OptionalMetadataField::DefaultCharset(collations) => {
            assert_eq!(collations.default_charset(), 33);
            assert_eq!(collations.non_default().collect::<Vec<_>>(), [(1, 255)]);
        }
        field => panic!("{field:?}"),
    }
    match first_field(b"\x0a\x01\x3f") {
        OptionalMetadataField::EnumAndSetDefaultCharset(collations) => {
            assert_eq!(collations.default_charset(), 63);
            assert_eq!(collations.non_default().count(), 0);
        }
        field => panic!("{field:?}"),
    }
}

#[test]
fn members_are_listed() {
    match first_field(b"\x06\x06\x02\x01a\x02bc") {
        OptionalMetadataField::EnumStrValue(mut lists) => {
            let members: Vec<_> = lists.next().unwrap().collect();
            assert_eq!(members, [&b"a"[..], b"bc"]);
        }
        field => panic!("{field:?}"),
    }
    for (bytes, wanted) in [
        (&b"\x05\x03\x01\x01x"[..], &[&b"x"[..]][..]),
        (b"\x05\x01\x00", &[]),
    ] {
        match first_field(bytes) {
            OptionalMetadataField::SetStrValue(mut lists) => {
                let members: Vec<_> = lists.next().unwrap().collect();
                assert_eq!(members, wanted);
            }
            field => panic!("{field:?}"),
        }
    }
}
