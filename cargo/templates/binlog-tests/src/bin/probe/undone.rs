//! Prints the rows that undo those of each row event of a binary log, and the event that has them, for `tests/undone_rows.py`: a line
//! of JSON for each that can be read.
use binlog::consts::BinlogVersion;
use binlog::events::{EventData, RowsEventData, TableMapEvent};
use binlog::json_lines::Line;
use binlog::undo::{ForeignKeyChecks, InverseEvent, UndoError, UndoneRows, undo_event, undo_rows};
use binlog::values::{ImageKind, RowsError, TableColumns};
use binlog::{AllocError, BinlogFile, Error, EventStreamReader};
use std::io::{self, Write};

/// The columns of a primary key are the first ones of a table.
const KEYS: [&[u64]; 3] = [&[], &[0], &[0, 1]];

// Writes the line of a row event. The reader has the table maps before it.
fn write_rows_event(
    index: u64,
    event: &RowsEventData<'_>,
    reader: &EventStreamReader,
    key: &[u64],
    line: &mut Line,
) -> Result<(), AllocError> {
    line.begin_object()?;
    line.number_member("index", index)?;
    match reader.get_tme(event.table_id()) {
        Some(table_map) => write_table(event, table_map, key, line)?,
        None => {
            line.key("rows")?;
            line.null()?;
        }
    }
    line.end_object()
}

fn write_table(
    event: &RowsEventData<'_>,
    table_map: &TableMapEvent<'_>,
    key: &[u64],
    line: &mut Line,
) -> Result<(), AllocError> {
    let types = table_map.columns_type_raw();
    let Ok(columns) = TableColumns::new(types, table_map.columns_metadata_raw()) else {
        return write_name(line, "Columns");
    };
    match undo_rows(event, columns, key) {
        Ok(rows) => write_undone(line, &rows)?,
        Err(error) => return write_refusal(line, &error),
    }
    line.key("event")?;
    write_inverse(line, undo_event(event, columns, key, ForeignKeyChecks::AsLogged))?;
    line.key("unchecked")?;
    write_inverse(line, undo_event(event, columns, key, ForeignKeyChecks::Off))
}

fn write_undone(line: &mut Line, rows: &UndoneRows) -> Result<(), AllocError> {
    line.key("completes")?;
    line.boolean(rows.completes())?;
    line.bytes_member("rows", rows.as_bytes())
}

// Writes the type and the body of the event that undoes another one, as an array; null if it is refused, as its rows are then.
fn write_inverse(line: &mut Line, undone: Result<InverseEvent, UndoError>) -> Result<(), AllocError> {
    let Ok(event) = undone else {
        return line.null();
    };
    line.begin_array()?;
    line.number(u64::from(event.event_type() as u8))?;
    line.bytes(event.body())?;
    line.end_array()
}

fn write_name(line: &mut Line, name: &str) -> Result<(), AllocError> {
    line.key("error")?;
    line.string(name)
}

fn write_refusal(line: &mut Line, error: &UndoError) -> Result<(), AllocError> {
    match error {
        UndoError::Event(_) => write_name(line, "ColumnCount"),
        UndoError::Image => write_name(line, "Image"),
        UndoError::PartialJson(_) => write_name(line, "PartialJson"),
        UndoError::Rows(error) => write_rows_error(line, error),
        UndoError::Memory => Err(AllocError),
    }
}

fn write_rows_error(line: &mut Line, error: &RowsError) -> Result<(), AllocError> {
    write_name(line, &format!("{:?}", error.kind))?;
    line.number_member("row", error.row)?;
    if let Some(image) = error.image {
        line.key("image")?;
        line.string(match image {
            ImageKind::Before => "before",
            ImageKind::After => "after",
        })?;
    }
    if let Some(column) = error.column {
        line.number_member("column", column)?;
    }
    Ok(())
}

/// Prints the lines of the log on standard input, of tables whose primary key are their first columns, this many, at most two.
///
/// # Errors
///
/// Those of the file header and of the output. The lines before are printed.
pub(crate) fn run(key_columns: usize, output: &mut impl Write) -> Result<(), Error> {
    let key = KEYS[key_columns.min(2)];
    let mut file = BinlogFile::new(BinlogVersion::Version4, io::stdin().lock())?;
    let mut line = Line::new();
    for index in 0.. {
        let event = match file.next() {
            Some(Ok(event)) => event,
            Some(Err(error)) if error.is_environment_error() => return Err(error),
            Some(Err(_)) => continue,
            None => break,
        };
        if let Ok(Some(EventData::RowsEvent(rows))) = event.read_data() {
            line.clear();
            write_rows_event(index, &rows, file.reader(), key, &mut line)?;
            output.write_all(line.end()?).map_err(|error| Error::Writer(error.into()))?;
        }
    }
    Ok(())
}
