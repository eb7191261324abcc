//! Prints the GTIDs of a log that another log lacks: `missing_gtids LOG OTHER`
use binlog::GtidTracker;
use binlog::counted::Counted;
use binlog_tools::{GtidCollector, visit};
use std::error::Error;
use std::fs::File;
use std::io;
use std::io::BufReader;

fn main() -> Result<(), Box<dyn Error>> {
    let words: Vec<String> = std::env::args().collect();
    let [_, log, other] = &words[..] else {
        return Err("usage: missing_gtids LOG OTHER".into());
    };
    let missing = gtids(log)?.subtract(&gtids(other)?)?;
    println!("{missing}");
    Ok(())
}

fn gtids(name: &str) -> Result<GtidTracker, Box<dyn Error>> {
    // It writes a line for each damaged event.
    let mut collector = GtidCollector::new(Counted::new(io::stderr()));
    visit(BufReader::new(File::open(name)?), &mut collector)?;
    Ok(collector.gtids.mysql)
}
