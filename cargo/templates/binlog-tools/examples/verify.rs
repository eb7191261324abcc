//! Verifies the checksums of a log: `verify FILE`
use binlog::Crc32File;
use binlog::consts::BinlogVersion;
use std::error::Error;
use std::fs::File;
use std::io::BufReader;

fn main() -> Result<(), Box<dyn Error>> {
    let name = std::env::args().nth(1).ok_or("usage: verify FILE")?;
    let mut file = Crc32File::verified(BinlogVersion::Version4, BufReader::new(File::open(name)?))?;
    let (mut index, mut damaged) = (0, 0);
    while let Some(item) = file.next_ref() {
        match item {
            Ok(_) => {}
            // Memory or the reader failed.
            Err(error) if error.is_environment_error() => return Err(error.into()),
            Err(error) => {
                println!("event {index}: {error}");
                damaged += 1;
            }
        }
        index += 1;
    }
    println!("{damaged} events damaged");
    if let Some(rest @ 1..) = file.tail_len() {
        println!("the last {rest} bytes are the beginning of an event");
    }
    Ok(())
}
