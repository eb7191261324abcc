//! Copies the transactions that have one of some GTIDs of MySQL's: `copy_transactions GTIDS FROM TO`
//! Damaged events are left out.
use binlog::BinlogFileHeader;
use binlog::consts::BinlogVersion;
use binlog_tools::{Copier, Filter, Filtered, GtidSet, visit};
use std::error::Error;
use std::fs::File;
use std::io::{BufReader, BufWriter, Write};

fn main() -> Result<(), Box<dyn Error>> {
    let words: Vec<String> = std::env::args().collect();
    let [_, gtids, from, to] = &words[..] else {
        return Err("usage: copy_transactions GTIDS FROM TO".into());
    };
    let mut filter = Filter::new();
    filter.include_gtids = Some(GtidSet::Mysql(gtids.parse()?));
    // The other events are read under the format descriptions.
    filter.is_for_copy = true;
    let input = BufReader::new(File::open(from)?);
    // A file that is there isn't written over: it may be the log.
    let mut output = BufWriter::new(File::create_new(to)?);
    BinlogFileHeader.write(BinlogVersion::Version4, &mut output)?;
    let mut copier = Filtered::new(filter, Copier { output });
    if visit(input, &mut copier)? != Some(0) {
        eprintln!("{from}: what is behind the last event isn't copied");
    }
    copier.visitor.output.flush()?;
    Ok(())
}
