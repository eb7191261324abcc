//! MySQL binary logs (format version 4), read and written.
//!
//! [`BinlogFile`] reads a log from a reader, [`BinlogSlice`] one in memory, and [`EventStreamReader`] a stream of events
//! without a file header. Each gives events, owned ([`events::Event`]) or borrowed ([`EventRef`]); an event's body is read
//! as one type by [`EventRef::read_event`], or by its own type by [`EventRef::read_data`].
//!
//! The sources of this crate are made from proved ones, module by module. The proofs hold of those; what made these is
//! tested.
//!
//! # Example
//!
//! ```
//! use binlog::BinlogFile;
//! use binlog::consts::{BinlogVersion, EventType};
//! use binlog::events::XidEvent;
//!
//! fn last_transaction(input: impl std::io::BufRead) -> Result<Option<u64>, binlog::Error> {
//!     let mut file = BinlogFile::new(BinlogVersion::Version4, input)?;
//!     let mut last = None;
//!     while let Some(item) = file.next_ref() {
//!         let event = item?;
//!         if let Ok(EventType::XID_EVENT) = event.header().event_type() {
//!             last = Some(event.read_event::<XidEvent>()?.xid);
//!         }
//!     }
//!     Ok(last)
//! }
//!
//! let empty_log = [0xfe, b'b', b'i', b'n'];
//! assert_eq!(last_transaction(&empty_log[..]), Ok(None));
//! ```
#![forbid(unsafe_code)]

// The proofs are of a `usize` of 64 bits. With fewer a length of 64 bits that is stated would be cut, and another text be read.
#[cfg(not(target_pointer_width = "64"))]
compile_error!("binlog is for targets of 64 bits");

// The example of the packages' README is compiled.
#[cfg(doctest)]
#[doc = include_str!("../../README.md")]
struct Readme;

mod base64;
// Of a loop and of a function a proof alone reads a name.
#[allow(unused_variables)]
mod binary_json;
#[allow(unused_variables)]
mod binary_json_lines;
#[allow(unused_variables)]
mod binary_json_writing;
mod binlog_bodies;
mod binlog_columns;
mod binlog_consts;
// The toolchain's maps have no `entry`.
#[allow(clippy::map_entry)]
mod binlog_declared_columns;
mod binlog_event_format;
mod binlog_ends;
mod binlog_event_data;
mod binlog_events;
mod binlog_file;
mod binlog_gtid_sets;
mod binlog_gtid_text;
mod binlog_gtids;
#[allow(unused_variables)]
mod binlog_images;
mod binlog_maria_gtids;
mod binlog_mariadb;
mod binlog_payloads;
mod binlog_variable_fields;
// Of the counts of columns by their class two are of no use yet.
#[allow(dead_code)]
mod binlog_optional_metadata;
mod binlog_json_values;
// Of a pattern a proof alone reads a name.
#[allow(unused_variables)]
mod binlog_row_writing;
mod binlog_rows;
mod binlog_statements;
mod binlog_transactions;
// Of some functions a contract alone reads a parameter.
#[allow(unused_variables)]
mod binlog_undo;
mod binlog_undo_index;
mod binlog_values;
mod binlog_wire;
mod bitflags;
mod calendar;
mod character_sets;
mod checksums;
// The fields of variants are told with their variants; the toolchain's vectors have no default.
#[allow(missing_docs, clippy::manual_unwrap_or_default)]
mod column_files;
mod crc32_ieee;
mod declared;
#[doc(hidden)]
pub mod digits;
mod display;
#[cfg(feature = "serde_json")]
mod documents;
mod fast_float;
mod gtids;
mod inflate;
mod json;
mod json_columns;
mod json_line;
#[doc(hidden)]
pub mod memory;
mod reading;
mod simd;
mod zstd_decode;

pub use crate::binlog_event_format::{BinlogCtx, BinlogEvent, BinlogStruct, DescriptionRef, read_body};
pub use crate::binlog_ends::DeviceError;
pub use crate::binlog_events::{BinlogFileHeader, EventRef};
pub use crate::binlog_file::{
    BinlogFile, BinlogFileOf, BinlogSlice, EventStreamReader, Items, Unverified, Verification,
    Verified, VerifiedFile, VerifiedSlice,
};
pub use crate::binlog_gtid_sets::GtidTracker;
pub use crate::binlog_gtids::GnoSet;
pub use crate::binlog_wire::{Error, Field, IntoOwned, Invalid, TryClone};
pub use crate::checksums::{Crc32File, Crc32Slice, crc32};
pub use crate::crc32_ieee::Crc32;
pub use crate::memory::AllocError;

/// Constants: types of events, flags, versions and small tables of codes.
pub mod consts {
    pub use crate::binlog_consts::{BinlogChecksumAlg, BinlogVersion, EventFlags, EventType};
    pub use crate::binlog_consts::{IncidentType, IntvarEventType, ItemResult, LoadDuplicateHandling};
    pub use crate::binlog_consts::{RowsEventFlags, StatusVarKey, UserVarFlags};
    pub use crate::binlog_consts::{UnknownChecksumAlg, UnknownEventType, UnknownIncidentType};
    pub use crate::binlog_consts::{UnknownItemResultType, UnknownStatusVarKey};
    pub use crate::binlog_event_format::{MAX_BODY_LEN, SERVER_VER_LEN};
    pub use crate::binlog_gtids::GtidFlags;
    pub use crate::binlog_optional_metadata::{OptionalMetadataFieldType, UnknownOptionalMetadataFieldType};
}

/// MySQL's compressed transactions: the payloads of events, their contents, and the events in them.
pub mod payloads {
    pub use crate::binlog_payloads::{PayloadError, TransactionPayloadCompressionType};
    pub use crate::binlog_payloads::{TransactionPayloadEvent, TransactionPayloadReader};
    pub use crate::zstd_decode::ZstdError;
}

/// What undoes the changes of rows: the events that undo others, the transactions of a log, and the events that are written.
pub mod undo {
    #[doc(hidden)]
    pub use crate::binlog_events::event_ref_of_bytes;
    pub use crate::binlog_transactions::{GtidMark, Mark, Place, Refusal, Role, RowsMark, StatementKind, Transactions, Turn};
    pub use crate::binlog_transactions::Unsupported;
    #[doc(hidden)]
    pub use crate::binlog_transactions::statement_kind;
    pub use crate::binlog_undo::{EventsWriter, ForeignKeyChecks, Heading, InverseEvent, UndoError, UndoneChange, UndoneRows};
    pub use crate::binlog_undo::{WriteError, check_event, undo_event, undo_rows};
    pub use crate::binlog_undo_index::{ChangePlace, Positions, Reason, Refused, Rules, SeenEvent, Skips, TransactionPlace, UndoIndex};
}

/// Events: their headers and footers, and the bodies of each type.
pub mod events {
    pub use crate::binlog_bodies::{BeginLoadQueryEvent, IncidentEvent, IntvarEvent, RandEvent};
    pub use crate::binlog_bodies::{RotateEvent, RowsQueryEvent, XidEvent};
    pub use crate::binlog_event_format::{BinlogEventFooter, BinlogEventHeader, FormatDescriptionEvent};
    pub use crate::binlog_event_format::split_version;
    pub use crate::binlog_event_data::EventData;
    pub use crate::binlog_events::Event;
    pub use crate::binlog_file::{LogEventData, read_log_data};
    pub use crate::binlog_gtids::field_id;
    pub use crate::binlog_gtids::{AnonymousGtidEvent, GtidEvent, PreviousGtidsEvent, PreviousGtidsSid};
    pub use crate::binlog_variable_fields::{GnoInterval, Tag};
    pub use crate::binlog_optional_metadata::{OptionalMetadata, OptionalMetadataField};
    pub use crate::binlog_rows::{DeleteRows, DeleteRowsV1, PartialUpdateRows, UpdateRows};
    pub use crate::binlog_rows::{DeleteRowsEvent, DeleteRowsEventV1, PartialUpdateRowsEvent};
    pub use crate::binlog_rows::{HasAfterImage, HasBeforeImage, RowsForm, RowsKind};
    pub use crate::binlog_rows::{RowsEvent, RowsEventData, RowsEventOf, TableMapEvent};
    pub use crate::binlog_rows::{UpdateRowsEvent, UpdateRowsEventV1, WriteRowsEvent, WriteRowsEventV1};
    pub use crate::binlog_rows::{UpdateRowsV1, WriteRows, WriteRowsV1};
    pub use crate::binlog_statements::{ExecuteLoadQueryEvent, QueryEvent, UserVarEvent};
    pub use crate::binlog_statements::{StatusVar, StatusVarVal, StatusVars, StatusVarsIterator};
}

/// The fields that bodies are made of.
pub mod raw {
    pub use crate::binlog_variable_fields::{LenEnc, LenEncBytes, ValueList, Varlen, VarlenSigned};
    pub use crate::binlog_wire::{BareBytes, BareU8Bytes, BareU16Bytes, EofBytes, FixedLengthText};
    pub use crate::binlog_wire::{BitView, BytesRepr, Const, Constant, IntRepr, ParseBuf};
    pub use crate::binlog_wire::{LeU16, LeU32, LeU48, LeU56, LeU64, MyDeserialize, MySerialize};
    pub use crate::binlog_wire::{NullBytes, RawBytes, RawConst, RawFlags, RawInt, Skip, U8Bytes};
    pub use crate::binlog_wire::{U32Bytes, WritableBytes};
    pub use crate::bitflags::{Flag, Flags};
}

/// Integers of variable width.
pub mod misc {
    pub use crate::binlog_variable_fields::{lenenc_int_len, read_varlen_int, read_varlen_uint};
    pub use crate::binlog_variable_fields::{varlen_uint_size, write_varlen_int, write_varlen_uint};
    pub use crate::raw;
}

/// Readers and writers that count their failures.
pub mod counted {
    pub use crate::binlog_ends::{ATTEMPTS, Counted, CountedRef, CountsFailures, Failed, ReadCounted};
    pub use crate::binlog_ends::{Retrying, SliceReader, WriteCounted};
}

/// MariaDB's own events, the texts of compressed ones, and sets and the last of its GTIDs.
pub mod mariadb {
    pub use crate::binlog_maria_gtids::{MariaGtidFault, MariaGtidSet, MariaGtidTextError};
    pub use crate::binlog_maria_gtids::{MariaGtidTracker, parse_set};
    pub use crate::binlog_mariadb::{AnnotateRowsEvent, BinlogCheckpointEvent, GtidExtra, GtidHead};
    pub use crate::binlog_mariadb::{GtidListEvent, MariaEvent, MariaEventData, MariaEventType};
    pub use crate::binlog_mariadb::{MariaGtid, MariaGtidEvent, MariaGtidFlags, RowsCompressedEvent};
    pub use crate::binlog_mariadb::{StartEncryptionEvent, UnknownMariaEventType, XaId};
    pub use crate::binlog_mariadb::{CompressionError, is_maria_log, is_maria_version, uncompress};
    pub use crate::binlog_mariadb::{read_maria_body, read_maria_data};
}

/// The texts of zlib streams in memory.
pub mod zlib {
    pub use crate::inflate::{Error, adler32, decompress_zlib};
}

/// The contents of Zstandard frames in memory.
pub mod zstd {
    pub use crate::zstd_decode::{ZstdError, decompress};
}

/// The columns of a table map, the rows of row events, and their values.
///
/// [`RowsEventExt::rows`](values::RowsEventExt::rows) gives the rows of an event beside its table map, and
/// [`Value::display`](values::Value::display) shows a value.
pub mod values {
    pub use crate::binlog_columns::{Column, ColumnError, ColumnErrorKind, ColumnType};
    pub use crate::binlog_columns::{Decoder, Layout};
    pub use crate::binlog_columns::{TableColumns, UnknownColumnType};
    pub use crate::binlog_images::{ColumnValue, ColumnVisitor, HasWholeRows, Image, ImageKind};
    pub use crate::binlog_images::{Row, Rows, RowsError, RowsErrorKind, RowsEventError, RowsEventExt};
    pub use crate::binlog_optional_metadata::{ColumnClass, DefaultCharset, IndexedNumbers};
    pub use crate::binlog_optional_metadata::{MemberLists, MetadataBits, Names, Numbers};
    pub use crate::binlog_optional_metadata::{ColumnFacts, TableFacts, TableMapColumns};
    pub use crate::binlog_optional_metadata::{OptionalMetadataError, OptionalMetadataErrorKind};
    pub use crate::binlog_values::{Bit, Date, DateTime, DateTime2, Decimal, DecimalGroups, Double};
    pub use crate::binlog_values::{Float, Integer, Time, Time2, Timestamp2, Value};
    pub use crate::binlog_values::{ValueFault, Year};
    pub use crate::character_sets::{CHARACTER_SETS, CharacterSet, Characters};
    #[doc(hidden)]
    pub use crate::binlog_values::text;
}

/// Files of columns: the answer of a server's `information_schema.COLUMNS`, for what table maps don't state of columns.
///
/// [`DeclaredTables`](columns::DeclaredTables) are read of the text of such a file, by
/// [`parse`](str::parse), and [`TableMapEvent::facts`](events::TableMapEvent::facts) has what a table map and files state of a
/// table's columns.
pub mod columns {
    pub use crate::binlog_declared_columns::{Contradictions, complete, declared_columns};
    pub use crate::binlog_declared_columns::{states_signs, table_facts};
    pub use crate::column_files::{ReadTablesError, TextFault, read_tables};
    pub use crate::column_files::{ColumnFileError, ColumnFileFault, ColumnLine, DeclaredColumn};
    pub use crate::column_files::{DeclaredTables, DeclaredTablesError, DeclaredType, Field};
    pub use crate::column_files::{HEADER, IntegerSize, LengthSize, Place, SimpleType, TemporalKind};
    pub use crate::column_files::parse;
    pub use crate::declared::{KnownFacts, TableFactsError};
}

/// The documents of JSON columns: MySQL's binary JSON.
///
/// [`Value::document`](values::Value::document) checks the bytes of [`Value::Json`](values::Value::Json), and
/// [`Document::value`](jsonb::Document::value) is what they say. [`ArrayBuilder`](jsonb::ArrayBuilder) and
/// [`ObjectBuilder`](jsonb::ObjectBuilder) make documents as a server writes them. With the feature `serde_json` a document is
/// converted to a `serde_json::Value`, and such a value to an [`OwnedDocument`](jsonb::OwnedDocument).
pub mod jsonb {
    pub use crate::binary_json::{Array, Decimal, Document, Double, Elements, JsonError, Members};
    pub use crate::binary_json::{Object, OpaqueValue, Refusal, Temporal, Value};
    pub use crate::binary_json_writing::{ArrayBuilder, JsonWriteError, ObjectBuilder, OwnedDocument};
    pub use crate::binary_json_writing::rewritten;
    #[cfg(feature = "serde_json")]
    pub use crate::documents::DocumentError;
}

/// The diffs of partial updates of JSON columns, those of [`ColumnValue::diffs`](values::ColumnValue::diffs).
/// [`apply`](jsondiff::apply) gives the document after them.
pub mod jsondiff {
    pub use crate::binary_json::{JsonDiff, JsonDiffError, JsonDiffOperation, JsonDiffs};
    pub use crate::binary_json_writing::{JsonApplyError, JsonChangeError, apply};
    pub use crate::binary_json_writing::{JsonPath, JsonPathError, JsonPathLeg};
}

/// What asks its callers for something, for `binlog-tools`: lines of JSON in memory that is reused, events that are read from a
/// payload for the reader of a stream, the frames of a file, and the columns of an image as its bytes have them.
#[doc(hidden)]
pub mod json_lines {
    pub use crate::binary_json_lines::{has_text, value_has_text, write_document_if_text, write_value_if_text};
    pub use crate::binlog_events::{Frame, split_frame};
    pub use crate::binlog_images::{StoredColumn, StoredRow, read_stored_columns};
    pub use crate::binlog_payloads::{content_description, read_decompressed};
    pub use crate::binlog_json_values::{KeptColumns, RowImages, ValueWriter};
    pub use crate::json_line::Line;
}

/// The bytes of the rows of a row event, made of values.
pub mod row_writing {
    pub use crate::binlog_row_writing::{NewDate, NewDecimal, NewTime, NewValue};
    pub use crate::binlog_row_writing::{RowWriteError, RowWriteErrorKind, RowsBuilder};
}

/// The text of a set of GTIDs, as servers write it: what [`GtidTracker`] has as `Display` and `FromStr`.
pub mod gtid_text {
    pub use crate::binlog_gtid_text::{GtidTextError, GtidTextFault, parse, to_text};
}

/// The error of a reader, a writer or a body, among those of input and output. That of a device has the device's kind.
impl From<Error> for std::io::Error {
    fn from(error: Error) -> Self {
        use std::io::ErrorKind;
        let kind = match &error {
            Error::EndOfInput | Error::EndOfBody => ErrorKind::UnexpectedEof,
            Error::Memory | Error::FrameMemory => ErrorKind::OutOfMemory,
            Error::Reader(device) | Error::ReaderInFrame(device) | Error::Writer(device) => {
                device.kind()
            }
            Error::Unwritable(_) | Error::EventTooLong => ErrorKind::InvalidInput,
            Error::UnknownChecksumAlg(_) | Error::BadGno(_) => ErrorKind::InvalidInput,
            _ => ErrorKind::InvalidData,
        };
        std::io::Error::new(kind, error)
    }
}
