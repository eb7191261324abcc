//! The builders and getters of statements, and status variables.

use binlog::consts::UserVarFlags;
use binlog::consts::{BinlogVersion, LoadDuplicateHandling, StatusVarKey, UnknownItemResultType};
use binlog::events::UserVarEvent;
use binlog::events::{BinlogEventHeader, ExecuteLoadQueryEvent, QueryEvent, StatusVars};
use binlog::raw::{MySerialize, RawBytes};
use binlog::{BinlogCtx, BinlogEvent, BinlogStruct, DescriptionRef, Error, read_body};

const VERSION: BinlogVersion = BinlogVersion::Version4;

/// The status variables of the first statement in a log of MySQL 5.0.86.
const STATUS: &[u8] = b"\0\0\x40\0\0\x01\0\0\0\0\0\0\0\0\x06\x03std\x04\x08\0\x08\0\x08\0";

fn read<'a, T: BinlogEvent<'a>>(body: &'a [u8]) -> Result<T, Error> {
    let size = BinlogEventHeader::LEN + body.len();
    let number = u8::from(T::EVENT_TYPE);
    read_body(
        BinlogCtx::new(size, DescriptionRef::new(VERSION), number),
        body,
    )
}

/// What is written for an event, as many bytes as its length says.
fn written<'a>(event: &(impl BinlogStruct<'a> + MySerialize)) -> Vec<u8> {
    let mut bytes = Vec::new();
    event.serialize(&mut bytes).unwrap();
    assert_eq!(event.len(VERSION), bytes.len());
    bytes
}

fn status_vars(text: &[u8]) -> StatusVars<'_> {
    StatusVars(RawBytes::new(text))
}

/// An EXECUTE_LOAD_QUERY of the thread 1: the schema `d`, the locale 8, the file 2 with the positions 3 and 4.
fn load_query() -> ExecuteLoadQueryEvent<'static> {
    ExecuteLoadQueryEvent::new(0, LoadDuplicateHandling::LOAD_DUP_ERROR, b"", b"")
        .with_thread_id(1)
        .with_execution_time(0)
        .with_error_code(0)
        .with_file_id(2)
        .with_start_pos(3)
        .with_end_pos(4)
        .with_dup_handling(LoadDuplicateHandling::LOAD_DUP_REPLACE)
        .with_status_vars(b"\x07\x08\0")
        .with_schema(b"d")
        .with_query(b"LOAD")
}

#[test]
fn the_first_statement_of_the_sample_is_read() {
    let body = b"\x01\0\0\0\0\0\0\0\x04\0\0\x1a\0\0\0\x40\0\0\x01\0\0\0\0\0\0\0\0\x06\x03std\x04\x08\0\x08\0\x08\0\
        test\0create table t1(a int) engine= innodb";
    let event = QueryEvent::new(b"", b"")
        .with_thread_id(1)
        .with_execution_time(0)
        .with_error_code(0)
        .with_status_vars(STATUS)
        .with_schema(b"test")
        .with_query(b"create table t1(a int) engine= innodb");
    assert_eq!(read(body), Ok(event));
}

#[test]
fn a_schema_is_kept_and_written_in_255_bytes() {
    let event = QueryEvent::new(b"", &[b's'; 256]);
    assert_eq!(event.schema_raw(), [b's'; 255]);
    let body = written(&event);
    assert_eq!(body.len(), 269);
    assert!(body.starts_with(b"\0\0\0\0\0\0\0\0\xff\0\0\0\0s"));
}

#[test]
fn a_load_query_is_read() {
    let body =
        b"\x01\0\0\0\0\0\0\0\x01\0\0\x03\0\x02\0\0\0\x03\0\0\0\x04\0\0\0\x02\x07\x08\0d\0LOAD";
    assert_eq!(read(body), Ok(load_query()));
}

#[test]
fn variables_are_kept_and_written_in_65_535_bytes() {
    let event = load_query().with_status_vars(vec![14; 65_536]);
    assert_eq!(event.status_vars_raw().len(), 65_535);
    let body = written(&event);
    assert_eq!(body.len(), 65_567);
    assert!(body.starts_with(b"\x01\0\0\0\0\0\0\0\x01\0\0\xff\xff"));
}

#[test]
fn variables_count_in_65_535_bytes_alone() {
    // None of these has a value.
    assert_eq!(status_vars(&[14; 65_537]).iter().count(), 65_535);
}

#[test]
fn the_first_variable_of_a_key() {
    let vars = status_vars(b"\x06\x01a\x05\0\x06\x01b");
    let catalog = vars.get_status_var(StatusVarKey::CatalogNz).unwrap();
    assert_eq!(catalog.raw(), b"\x01a");
    assert!(vars.get_status_var(StatusVarKey::Invoker).is_none());
}

// A variable without a name, of an unknown type, with all known flags and one unknown flag.
#[test]
fn types_and_flags_of_a_user_variable_that_are_not_known() {
    let event: UserVarEvent = read(b"\0\0\0\0\0\xff\x3f\0\0\0\0\0\0\0\x03").unwrap();
    assert_eq!(event.value_type(), Err(UnknownItemResultType(-1)));
    assert_eq!(event.flags(), UserVarFlags::UNSIGNED);
    assert_eq!(event.value(), b"");
}
