//! Prints the rows of a log, each value behind the name of its column, by files of columns, too: `rows FILE [COLUMNS..]`
//! Rows in compressed transactions, and compressed rows of MariaDB's, are left out.
use binlog::{BinlogFile, columns::read_tables, consts::BinlogVersion, events::EventData, mariadb::is_maria_log};
use binlog::values::{ColumnFacts, ColumnValue, Image, RowsEventExt};
use std::error::Error;
use std::fs::{self, File};
use std::io::BufReader;

fn main() -> Result<(), Box<dyn Error>> {
    let mut names = std::env::args().skip(1);
    let log = File::open(names.next().ok_or("usage: rows FILE [COLUMNS..]")?)?;
    let read = |name| -> Result<_, Box<dyn Error>> { Ok(read_tables(&fs::read(name)?)?) };
    let files = names.map(read).collect::<Result<Vec<_>, _>>()?;
    let mut file = BinlogFile::new(BinlogVersion::Version4, BufReader::new(log))?;
    while let Some(item) = file.next() {
        let event = item?;
        if let Some(EventData::RowsEvent(rows)) = event.read_data()? {
            let Some(map) = file.reader().get_tme(rows.table_id()) else { println!("rows without a table map"); continue };
            println!("{}.{}", map.database_name(), map.table_name());
            let facts = map.facts(&files, is_maria_log(&event.as_ref().fde()))?.table;
            for row in rows.rows(map)? {
                let row = row?;
                row.before().into_iter().for_each(|image| print("-", &facts.columns, image));
                row.after().into_iter().for_each(|image| print("+", &facts.columns, image));
            }
        }
    }
    Ok(())
}

fn print(sign: &str, facts: &[ColumnFacts<'_>], image: Image<'_>) {
    for (place, (column, value)) in facts.iter().zip(image).enumerate() {
        let name = column.name.map_or_else(|| place.to_string(), String::from);
        match value {
            ColumnValue::Value(value) => println!("{sign} {name}: {}", value.display(column)),
            _ => println!("{sign} {name}: {value:?}"),
        }
    }
}
