//! Prints the rows of each row event of the binary log on standard input, as `rows` does. It panics if the values that a line has
//! aren't those that their `Display` shows.
use binlog::consts::BinlogVersion;
use binlog::events::{EventData, RowsEventData, TableMapEvent};
use binlog::jsonb::Document;
use binlog::jsondiff::{JsonDiffOperation, JsonDiffs, apply};
use binlog::mariadb::is_maria_log;
use binlog::json_lines::{Line, ValueWriter};
use binlog::memory::AllocError;
use binlog::values::{ColumnFacts, ColumnValue, Image, Row, Rows, RowsEventError, RowsEventExt};
use binlog::values::{TableColumns, TableFacts, Value};
use binlog::{BinlogFile, Error};
use std::io::{self, BufWriter, Write};

/// How many diffs of a list are applied at most.
const MOST_DIFFS: usize = 100;

/// The line of an event with these rows, of a table with this map.
struct Printer {
    line: Line,
    values: ValueWriter,
}

impl Printer {
    fn write(
        &mut self,
        index: u64,
        rows: &RowsEventData<'_>,
        table_map: Option<&TableMapEvent<'_>>,
        is_maria: bool,
    ) -> Result<&[u8], AllocError> {
        self.line.clear();
        self.line.begin_object()?;
        self.line.number_member("index", index)?;
        match table_map {
            Some(table_map) => self.write_rows(rows, table_map, is_maria)?,
            None => {
                self.line.key("rows")?;
                self.line.null()?;
            }
        }
        self.line.end_object()?;
        self.line.end()
    }

    fn write_rows(
        &mut self,
        event: &RowsEventData<'_>,
        table_map: &TableMapEvent<'_>,
        is_maria: bool,
    ) -> Result<(), AllocError> {
        let rows = match event.rows(table_map) {
            Ok(rows) => rows,
            Err(error) => {
                self.line.key("error")?;
                return self.line.plain_string(name_of(&error));
            }
        };
        let metadata = table_map.columns_metadata_raw();
        let columns = TableColumns::new(table_map.columns_type_raw(), metadata)
            .expect("the columns of a table whose rows are read");
        let facts = TableFacts::new(columns, table_map.optional_metadata_raw(), is_maria)?;
        self.line.key("rows")?;
        let begun = self.line.end()?.len() - 1;
        self.values.write_rows(&mut self.line, &facts.columns, rows.clone())?;
        let shown = displayed_rows(&facts.columns, rows);
        let rest = self.line.end()?[begun..].strip_prefix(shown.as_bytes());
        let ends: [&[u8]; 3] = [b"]\n", b"{\"error\":", b",{\"error\":"];
        let is_end = |rest: &[u8]| ends.iter().any(|end| rest.starts_with(end));
        assert!(rest.is_some_and(is_end), "not {shown}");
        Ok(())
    }
}

/// The rows in front of the first refused one, by the `Display` of their values: JSON, without the bracket at the end.
fn displayed_rows(columns: &[ColumnFacts<'_>], rows: Rows<'_>) -> String {
    let rows: Vec<String> =
        rows.map_while(Result::ok).map(|row| displayed_row(columns, &row)).collect();
    format!("[{}", rows.join(","))
}

fn displayed_row(columns: &[ColumnFacts<'_>], row: &Row<'_>) -> String {
    let images = [("before", row.before()), ("after", row.after())].into_iter();
    let members: Vec<String> = images
        .filter_map(|(name, image)| {
            let shown = displayed_image(columns, row.before(), image?);
            Some(format!("\"{name}\":{shown}"))
        })
        .collect();
    format!("{{{}}}", members.join(","))
}

/// An image of a row with this image before.
fn displayed_image(
    columns: &[ColumnFacts<'_>],
    before: Option<Image<'_>>,
    image: Image<'_>,
) -> String {
    let before: Vec<_> = before.into_iter().flatten().collect();
    let members: Vec<String> = columns
        .iter()
        .zip(image)
        .enumerate()
        .filter_map(|(place, (facts, value))| {
            let name = match facts.name {
                Some(name) => name.to_owned(),
                None => format!("@{}", place + 1),
            };
            let shown = displayed(facts, before.get(place), value)?;
            Some(format!("{}:{shown}", Value::Bytes(name.as_bytes())))
        })
        .collect();
    format!("{{{}}}", members.join(","))
}

fn displayed(
    facts: &ColumnFacts<'_>,
    before: Option<&ColumnValue<'_>>,
    value: ColumnValue<'_>,
) -> Option<String> {
    match value {
        ColumnValue::Absent => None,
        ColumnValue::Null => Some(Value::Null.to_string()),
        ColumnValue::Value(value) => Some(value.display(facts).to_string()),
        ColumnValue::Diffs(bytes) => {
            let after = displayed_after(before, bytes).unwrap_or_default();
            Some(match displayed_diffs(bytes) {
                Some(diffs) => format!("{{\"diffs\":[{diffs}]{after}}}"),
                None => format!("{{\"diffs\":{}{after}}}", Value::Geometry(bytes)),
            })
        }
    }
}

/// The member of the document after these diffs, behind a comma, if there is one.
fn displayed_after(before: Option<&ColumnValue<'_>>, diffs: &[u8]) -> Option<String> {
    let Some(ColumnValue::Value(Value::Json(before))) = before else {
        return None;
    };
    if JsonDiffs::new(diffs).count() > MOST_DIFFS {
        return None;
    }
    let before = Document::read(before).ok()?;
    let after = apply(&before, JsonDiffs::new(diffs)).ok()?;
    let shown = Value::Json(after.as_bytes()).to_string();
    let value = shown.strip_prefix("{\"json\":")?.strip_suffix('}')?;
    Some(format!(",\"json\":{value}"))
}

/// The diffs of a list, if each of them has a text. Their documents are cut out of the bytes here.
fn displayed_diffs(mut bytes: &[u8]) -> Option<String> {
    let mut texts = Vec::new();
    for diff in JsonDiffs::new(bytes) {
        let diff = diff.ok()?;
        let operation = match diff.operation() {
            JsonDiffOperation::Replace => "replace",
            JsonDiffOperation::Insert => "insert",
            JsonDiffOperation::Remove => "remove",
        };
        let path = std::str::from_utf8(diff.path()).ok()?;
        let head = format!("\"op\":\"{operation}\",\"path\":{}", Value::Bytes(path.as_bytes()));
        (_, bytes) = counted(&bytes[1..])?;
        if diff.document().is_none() {
            texts.push(format!("{{{head}}}"));
            continue;
        }
        let document;
        (document, bytes) = counted(bytes)?;
        let shown = Value::Json(document).to_string();
        let value = shown.strip_prefix("{\"json\":")?.strip_suffix('}')?;
        texts.push(format!("{{{head},\"value\":{value}}}"));
    }
    Some(texts.join(","))
}

/// The bytes behind their length, as MySQL encodes it, and those behind them.
fn counted(bytes: &[u8]) -> Option<(&[u8], &[u8])> {
    let (&first, rest) = bytes.split_first()?;
    let (len, rest) = match first {
        0..=250 => (first.into(), rest),
        252 => (u16::from_le_bytes(*rest.first_chunk()?).into(), &rest[2..]),
        253 => (u32::from_le_bytes([rest[0], rest[1], rest[2], 0]) as usize, &rest[3..]),
        _ => (u64::from_le_bytes(*rest.first_chunk()?).try_into().ok()?, &rest[8..]),
    };
    rest.split_at_checked(len)
}

/// The name of a refusal.
fn name_of(error: &RowsEventError) -> &'static str {
    match error {
        RowsEventError::NoTableMap(_) => "NoTableMap",
        RowsEventError::Columns(_) => "Columns",
        _ => "ColumnCount",
    }
}

fn main() -> Result<(), Error> {
    let mut file = BinlogFile::new(BinlogVersion::Version4, io::stdin().lock())?;
    let mut output = BufWriter::new(io::stdout().lock());
    let mut printer = Printer {
        line: Line::new(),
        values: ValueWriter::new(),
    };
    let mut index = 0;
    while let Some(item) = file.next() {
        match item {
            Ok(event) => {
                let is_maria = is_maria_log(&event.as_ref().fde());
                if let Ok(Some(EventData::RowsEvent(rows))) = event.read_data() {
                    let table_map = file.reader().get_tme(rows.table_id());
                    let line = printer.write(index, &rows, table_map, is_maria)?;
                    output.write_all(line).map_err(|error| Error::Writer(error.into()))?;
                }
            }
            Err(error) if error.is_environment_error() => return Err(error),
            Err(_) => {}
        }
        index += 1;
    }
    output.flush().map_err(|error| Error::Writer(error.into()))
}
