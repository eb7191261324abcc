//! Reads the binary log on standard input, and writes it back to standard output with each checksum recomputed, for
//! `tests/written_back.py`.
use binlog::consts::BinlogVersion;
use binlog::{BinlogFile, BinlogFileHeader, Error};
use std::io::{self, BufWriter, Write};

fn main() -> Result<(), Error> {
    let mut file = BinlogFile::new(BinlogVersion::Version4, io::stdin().lock())?;
    let mut output = BufWriter::new(io::stdout().lock());
    BinlogFileHeader.write(BinlogVersion::Version4, &mut output)?;
    while let Some(item) = file.next_ref() {
        item?.write_crc32(BinlogVersion::Version4, &mut output)?;
    }
    output.flush().map_err(|error| Error::Writer(error.into()))
}
