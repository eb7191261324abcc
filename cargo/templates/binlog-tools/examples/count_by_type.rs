//! Counts the events of a log by their type: `count_by_type FILE`
use binlog::consts::EventType;
use binlog_tools::{Stats, visit};
use std::error::Error;
use std::fs::File;
use std::io::BufReader;

fn main() -> Result<(), Box<dyn Error>> {
    let name = std::env::args().nth(1).ok_or("usage: count_by_type FILE")?;
    let mut stats = Stats::new();
    visit(BufReader::new(File::open(name)?), &mut stats)?;
    for (number, events) in (0..=u8::MAX).zip(stats.events) {
        match EventType::try_from(number) {
            _ if events == 0 => {}
            Ok(event_type) => println!("{event_type:?}: {events}"),
            Err(_) => println!("type {number}: {events}"),
        }
    }
    println!("damaged: {}", stats.errors);
    Ok(())
}
