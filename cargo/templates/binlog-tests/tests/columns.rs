//! Files of columns: what they declare of the columns of a table map, what is refused of their text, and which columns contradict
//! them.
use binlog::columns::{ColumnFileFault, DeclaredTables, ReadTablesError, TableFactsError, TextFault};
use binlog::columns::{Place, read_tables};
use binlog::consts::BinlogVersion;
use binlog::events::{BinlogEventHeader, TableMapEvent, WriteRowsEvent};
use binlog::values::{CharacterSet, ColumnValue, RowsEventExt};
use binlog::{BinlogCtx, BinlogEvent, DescriptionRef, read_body};

const HEAD: &str = "TABLE_SCHEMA\tTABLE_NAME\tORDINAL_POSITION\tCOLUMN_NAME\tCOLUMN_TYPE\tCHARACTER_SET_NAME\n";

/// The table d.t: INT, ENUM, VARCHAR(10 bytes) and BINARY(3), without optional metadata.
const TABLE: &[u8] =
    b"\x05\0\0\0\0\0\x01\0\x01d\0\x01t\0\x04\x03\xfe\x0f\xfe\x06\xf7\x01\x0a\0\xfe\x03\x0f";

/// The file that declares it.
const LINES: &str = "d\tt\t1\tid\tint(10) unsigned\tNULL\n\
    d\tt\t2\tsize\tenum('small','it''s')\tlatin1\n\
    d\tt\t3\tn\\tame\tvarchar(10)\tlatin1\n\
    d\tt\t4\tbytes\tbinary(3)\tNULL\n";

fn read<'a, T: BinlogEvent<'a>>(body: &'a [u8]) -> T {
    let size = BinlogEventHeader::LEN + body.len();
    let description = DescriptionRef::new(BinlogVersion::Version4);
    read_body(BinlogCtx::new(size, description, T::EVENT_TYPE as u8), body).unwrap()
}

fn file(lines: &str) -> DeclaredTables {
    format!("{HEAD}{lines}").parse().unwrap()
}

/// The names of the columns, as far as they are known.
fn names(map: &TableMapEvent<'_>, files: &[DeclaredTables]) -> (Vec<Option<String>>, Option<usize>) {
    let facts = map.facts(files, false).unwrap();
    let names = facts.table.columns.iter().map(|column| column.name.map(String::from));
    (names.collect(), facts.contradiction)
}

#[test]
fn columns_have_what_their_file_declares() {
    let map: TableMapEvent = read(TABLE);
    let files = [file(LINES)];
    let facts = map.facts(&files, false).unwrap();
    assert_eq!(facts.contradiction, None);
    let columns = &facts.table.columns;
    let names: Vec<_> = columns.iter().map(|column| column.name).collect();
    assert_eq!(names, [Some("id"), Some("size"), Some("n\tame"), Some("bytes")]);
    assert_eq!(columns[0].is_unsigned, true);
    assert_eq!(columns[1].members, Some(vec![&b"small"[..], b"it's"]));
    assert_eq!(columns[2].character_set, Some(CharacterSet::Latin1));
    assert_eq!((columns[3].character_set, columns[3].padded_length), (Some(CharacterSet::Binary), 3));
}

// A row: 4294967295, the second member, the bytes e9 80, and a binary string whose zeros at the end are cut.
#[test]
fn values_are_displayed_by_it() {
    let map: TableMapEvent = read(TABLE);
    let event: WriteRowsEvent = read(
        b"\x05\0\0\0\0\0\x01\0\x02\0\x04\x0f\xf0\xff\xff\xff\xff\x02\x02\xe9\x80\x01\x61",
    );
    let files = [file(LINES)];
    let facts = map.facts(&files, false).unwrap().table;
    let row = event.rows(&map).unwrap().next().unwrap().unwrap();
    let values = facts.columns.iter().zip(row.after().unwrap());
    let shown: Vec<String> = values
        .map(|(column, value)| match value {
            ColumnValue::Value(value) => value.display(column).to_string(),
            _ => panic!("{value:?}"),
        })
        .collect();
    assert_eq!(shown, ["4294967295", r#""it's""#, "\"\u{e9}\u{20ac}\"", r#""610000""#]);
}

#[test]
fn the_last_file_that_has_a_table_counts() {
    let map: TableMapEvent = read(TABLE);
    let other = LINES.replace("id", "key");
    let elsewhere = LINES.replace("d\tt", "D\tt");
    let first = |files: &[DeclaredTables]| names(&map, files).0.swap_remove(0);
    assert_eq!(first(&[]), None);
    assert_eq!(first(&[file(LINES), file(&other)]).as_deref(), Some("key"));
    assert_eq!(first(&[file(&other), file(LINES), file(&elsewhere)]).as_deref(), Some("id"));
    assert_eq!(first(&[file(&elsewhere)]), None);
}

#[test]
fn a_table_that_contradicts_its_file_has_nothing_of_it() {
    let map: TableMapEvent = read(TABLE);
    for (lines, column) in [
        (LINES.replace("int(10)", "bigint(20)"), 0),
        (LINES.replace("varchar(10)", "varchar(11)"), 2),
        (LINES.replace("binary(3)", "binary(4)"), 3),
        (LINES.replace("binary(3)", "no type"), 3),
        (format!("{LINES}d\tt\t5\tmore\tint\tNULL\n"), 4),
        (LINES.lines().next().map(|line| format!("{line}\n")).unwrap(), 1),
    ] {
        assert_eq!(names(&map, &[file(&lines)]), (vec![None; 4], Some(column)), "{lines}");
    }
}

#[test]
fn a_text_that_is_no_file_has_its_first_fault_and_its_place() {
    let fault = |kind, line, column| ReadTablesError::Fault(kind, Place { line, column });
    let text = |fault| TextFault::Text(fault);
    for (lines, error) in [
        (&b"d\tt\t1\tid\tint\n"[..], fault(text(ColumnFileFault::Fields), 2, 13)),
        (b"d\tt\t0\tid\tint\tNULL\n", fault(text(ColumnFileFault::Position), 2, 5)),
        (b"d\tt\t1\ti\xffd\tint\tNULL\n", fault(text(ColumnFileFault::Encoding), 2, 7)),
        (b"d\tt\t1\ti\\d\tint\tNULL\n", fault(text(ColumnFileFault::Escape), 2, 7)),
        (b"d\tt\t1\tid\tint\tNULL\nd\tt\t1\tno\tint\tNULL\n", fault(TextFault::Order, 3, 5)),
    ] {
        let found = read_tables(&[HEAD.as_bytes(), lines].concat());
        assert_eq!(found.unwrap_err(), error);
    }
    let headless = read_tables(b"d\tt\t1\tid\tint\tNULL\n").unwrap_err();
    assert_eq!(headless, fault(text(ColumnFileFault::Header), 1, 1));
    let shown = "line 1, column 1: no line with the names of the six columns";
    assert_eq!(headless.to_string(), shown);
}

// The type 1 is TINY, and 99 is none.
#[test]
fn a_table_map_without_columns_is_refused() {
    let map: TableMapEvent = read(b"\x05\0\0\0\0\0\x01\0\x01d\0\x01t\0\x02\x01\x63\0\x03");
    let error = map.facts(&[file(LINES)], false).unwrap_err();
    assert!(matches!(error, TableFactsError::Column(error) if error.column == 1));
}
