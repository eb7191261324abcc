//! What the packages do otherwise than the proved sources: a failure has the device's error as its source, an interrupted
//! read or write is tried again, and readers and writers are passed by value or by `&mut`.

use std::error::Error as _;
use std::io::{self, BufRead, BufReader, ErrorKind, Read, Write};
use std::sync::Arc;

use binlog::consts::BinlogVersion;
use binlog::counted::{Counted, CountsFailures, Failed, ReadCounted, WriteCounted};
use binlog::events::{Event, FormatDescriptionEvent};
use binlog::{BinlogFile, BinlogFileHeader, Error, EventStreamReader};

const VERSION: BinlogVersion = BinlogVersion::Version4;

/// A log of one event, an XID of 7, under the default description.
const LOG: &[u8] = b"\xfebin\x01\0\0\0\x10\x01\0\0\0\x1b\0\0\0\x1f\0\0\0\0\0\x07\0\0\0\0\0\0\0";

const HEADER_LEN: usize = BinlogFileHeader::LEN;

/// Gives and takes a byte for each call; each other call is interrupted, and the one behind so many bytes fails for good.
struct Device {
    bytes: Vec<u8>,
    done: usize,
    fails_behind: usize,
    is_interrupted: bool,
}

impl Device {
    fn new(bytes: &[u8], fails_behind: usize) -> Self {
        Device {
            bytes: bytes.to_vec(),
            done: 0,
            fails_behind,
            is_interrupted: false,
        }
    }

    /// The outcome of the next call.
    fn call(&mut self) -> io::Result<()> {
        self.is_interrupted = !self.is_interrupted;
        if self.is_interrupted {
            return Err(ErrorKind::Interrupted.into());
        }
        if self.done == self.fails_behind {
            return Err(io::Error::new(
                ErrorKind::ConnectionReset,
                "the cable is out",
            ));
        }
        Ok(())
    }
}

impl Read for Device {
    fn read(&mut self, buf: &mut [u8]) -> io::Result<usize> {
        self.call()?;
        let count = (&self.bytes[self.done..]).read(&mut buf[..1])?;
        self.done += count;
        Ok(count)
    }
}

impl Write for Device {
    fn write(&mut self, bytes: &[u8]) -> io::Result<usize> {
        self.call()?;
        self.bytes.push(bytes[0]);
        self.done += 1;
        Ok(1)
    }

    fn flush(&mut self) -> io::Result<()> {
        Ok(())
    }
}

fn reader(fails_behind: usize) -> BufReader<Device> {
    BufReader::with_capacity(1, Device::new(LOG, fails_behind))
}

/// Whether an error's source is the device's, and the error is of its kind as one of input and output.
fn is_of_device(error: Error) -> bool {
    let source = error
        .source()
        .and_then(|source| source.downcast_ref::<io::Error>());
    assert_eq!(
        source.map(io::Error::kind),
        Some(ErrorKind::ConnectionReset)
    );
    assert_eq!(
        source.map(ToString::to_string),
        Some("the cable is out".to_string())
    );
    io::Error::from(error).kind() == ErrorKind::ConnectionReset
}

#[test]
fn interrupted_reads_are_tried_again() {
    let mut file = BinlogFile::new(VERSION, reader(usize::MAX)).unwrap();
    assert_eq!(file.next().unwrap().unwrap().data(), 7_u64.to_le_bytes());
    assert_eq!(file.next(), None);
    let mut input = reader(usize::MAX);
    BinlogFileHeader::read(&mut input).unwrap();
    let mut events = EventStreamReader::new(VERSION);
    assert!(events.read(&mut input).unwrap().is_some());
    assert_eq!(events.read(&mut input), Ok(None));
}

#[test]
fn interrupted_writes_are_tried_again() {
    let event = BinlogFile::new(VERSION, LOG)
        .unwrap()
        .next()
        .unwrap()
        .unwrap();
    let mut output = Device::new(b"", usize::MAX);
    event.write_crc32(VERSION, &mut output).unwrap();
    assert_eq!(output.bytes, LOG[HEADER_LEN..]);
    let mut counted = Counted::new(Device::new(b"", usize::MAX));
    counted.write_whole(LOG).unwrap();
    assert_eq!(
        (counted.failures(), counted.into_inner().bytes),
        (0, LOG.to_vec())
    );
}

#[test]
fn a_failure_has_the_device_s_error() {
    let in_header = BinlogFile::new(VERSION, reader(0)).err().unwrap();
    assert!(matches!(in_header, Error::Reader(_)) && is_of_device(in_header));
    let mut file = BinlogFile::new(VERSION, reader(HEADER_LEN)).unwrap();
    let before = file.next().unwrap().unwrap_err();
    assert!(matches!(before, Error::Reader(_)) && is_of_device(before));
    let mut file = BinlogFile::new(VERSION, reader(HEADER_LEN + 1)).unwrap();
    let within = file.next().unwrap().unwrap_err();
    assert!(matches!(within, Error::ReaderInFrame(_)) && is_of_device(within));
    for taken in [1, 20] {
        let mut input = reader(HEADER_LEN + taken);
        BinlogFileHeader::read(&mut input).unwrap();
        let within = EventStreamReader::new(VERSION)
            .read(&mut input)
            .unwrap_err();
        assert!(matches!(within, Error::ReaderInFrame(_)) && is_of_device(within));
    }
    let event = BinlogFile::new(VERSION, LOG)
        .unwrap()
        .next()
        .unwrap()
        .unwrap();
    let refused = event
        .write_crc32(VERSION, &mut Device::new(b"", 3))
        .unwrap_err();
    assert!(matches!(refused, Error::Writer(_)) && is_of_device(refused));
    let refused = BinlogFileHeader
        .write(VERSION, &mut Device::new(b"", 3))
        .unwrap_err();
    assert!(matches!(refused, Error::Writer(_)) && is_of_device(refused));
}

#[test]
fn a_counted_device_keeps_its_last_error() {
    let mut input = Counted::new(Device::new(LOG, 1));
    assert!(input.last_error().is_none());
    assert_eq!(input.read_some(&mut [0; 9]), Ok(1));
    let failed: Failed = input.read_some(&mut [0; 9]).unwrap_err();
    assert_eq!(failed.error().kind(), ErrorKind::ConnectionReset);
    assert_eq!(input.last_failure(), Some(ErrorKind::ConnectionReset));
    assert_eq!(input.last_error().unwrap().to_string(), "the cable is out");
    let source = failed
        .source()
        .and_then(|source| source.downcast_ref::<io::Error>());
    assert_eq!(
        source.map(io::Error::kind),
        Some(ErrorKind::ConnectionReset)
    );
}

#[test]
fn errors_are_compared_by_what_happened() {
    let reset = Error::Reader(ErrorKind::ConnectionReset.into());
    assert_eq!(reset, Error::Reader(ErrorKind::Other.into()));
    assert_ne!(
        reset,
        Error::ReaderInFrame(ErrorKind::ConnectionReset.into())
    );
    assert_eq!(Error::EndOfInput.source().map(ToString::to_string), None);
}

/// The event of a log, by a reader of any type.
fn first_event(mut input: impl BufRead) -> Result<Event, Error> {
    BinlogFileHeader::read(&mut input)?;
    Event::read(&FormatDescriptionEvent::new(VERSION), input)
}

#[test]
fn a_description_is_copied_or_shared() {
    let description = Arc::new(FormatDescriptionEvent::new(VERSION));
    let shared = Event::read_shared(&description, &LOG[HEADER_LEN..]);
    assert_eq!(Arc::strong_count(&description), 2);
    assert_eq!(Event::read(&description, &LOG[HEADER_LEN..]), shared);
    assert_eq!(Arc::strong_count(&description), 2);
    assert_eq!(Event::read(&description, &LOG[..1]), Err(Error::EndOfInput));
}

#[test]
fn readers_and_writers_are_passed_by_value_or_borrowed() {
    let event = first_event(LOG).unwrap();
    assert_eq!(first_event(&mut BufReader::new(LOG)), Ok(event.clone()));
    let boxed: Box<dyn BufRead> = Box::new(LOG);
    assert_eq!(first_event(boxed), Ok(event.clone()));
    let dynamic: &mut dyn BufRead = &mut &LOG[..];
    assert_eq!(first_event(dynamic), Ok(event.clone()));
    assert!(
        EventStreamReader::new(VERSION)
            .read(&LOG[HEADER_LEN..])
            .unwrap()
            .is_some()
    );
    let mut output = Vec::new();
    BinlogFileHeader.write(VERSION, &mut output).unwrap();
    event
        .write_crc32(VERSION, &mut output as &mut dyn Write)
        .unwrap();
    assert_eq!(output, LOG);
    let mut room = [0; 27];
    event.as_ref().write_crc32(VERSION, &mut room[..]).unwrap();
    assert_eq!(room, LOG[HEADER_LEN..]);
    event.write(VERSION, binlog::crc32, io::sink()).unwrap();
}
