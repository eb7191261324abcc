//! Random events, both ways: each is encoded by an encoder of its own, written from MySQL's and MariaDB's documentation
//! of the format; the library has to read the values of which it was made, and to write the same bytes.
//!
//! The events stand in logs of one description each, with or without checksums.

mod case;
mod encoder;
mod gtids;
mod log;
mod mariadb;
mod random;
mod rows;
mod small;
mod statements;

use binlog::{BinlogFile, BinlogFileHeader, BinlogSlice, Crc32, VerifiedFile};

use crate::case::{Maker, serialized};
use crate::encoder::Crc;
use crate::log::{Frame, Log};
use crate::random::Random;

const EVENTS: usize = 1_000_000;

/// How many events are behind the description of a log.
const EVENTS_OF_A_LOG: usize = 49;

/// What makes the events of a log. Each is as likely as any other.
fn makers() -> Vec<Maker> {
    [
        &small::MAKERS[..],
        &statements::MAKERS,
        &rows::MAKERS,
        &gtids::MAKERS,
        &mariadb::MAKERS,
    ]
    .concat()
}

/// Names the log of a failure.
struct Failing(u64);

impl Drop for Failing {
    fn drop(&mut self) {
        if std::thread::panicking() {
            eprintln!("in the log of seed {}", self.0);
        }
    }
}

/// What the log's own checksums are computed by, and the library's.
struct Sums {
    own: Crc,
    library: Crc32,
}

fn check(log: &Log, sums: &Sums) {
    let events = BinlogSlice::new(log.version, &log.bytes).unwrap();
    let mut written = BinlogFileHeader::VALUE.to_vec();
    let mut frames = log.frames.iter();
    for item in events {
        let event = item.unwrap();
        let frame = frames.next().unwrap();
        frame.check_parts(event, &sums.library);
        (frame.case.check)(event, frame.case.written());
        if let Some(data) = event.read_data().unwrap() {
            assert_eq!(serialized(&data), frame.case.written());
        }
        event
            .write(
                log.version,
                |bytes| sums.library.checksum(bytes),
                &mut written,
            )
            .unwrap();
    }
    assert!(frames.next().is_none());
    assert_eq!(written, log.bytes);
}

/// The readers of a log that isn't in memory give the same events.
fn check_readers(log: &Log, sums: &Sums) {
    let input = &mut &log.bytes[..];
    let file = BinlogFile::new(log.version, input).unwrap();
    let verified = VerifiedFile::new(
        log.version,
        |bytes: &[u8]| sums.library.checksum(bytes),
        &log.bytes[..],
    );
    let mut frames = log.frames.iter();
    for (item, verified) in file.items().zip(verified.unwrap().items()) {
        let event = item.unwrap();
        let Frame { header, case, .. } = frames.next().unwrap();
        assert_eq!(
            (serialized(&event.header()), event.data()),
            (header.encoded(), &case.body[..])
        );
        assert_eq!(event, verified.unwrap());
    }
    assert!(frames.next().is_none());
}

#[test]
fn random_events_are_read_and_written_as_they_are_encoded() {
    let makers = makers();
    let sums = Sums {
        own: Crc::new(),
        library: Crc32::new(),
    };
    for seed in 0..(EVENTS / (EVENTS_OF_A_LOG + 1)) as u64 {
        let _failing = Failing(seed);
        let log = Log::new(&mut Random::new(seed), &makers, &sums.own);
        check(&log, &sums);
        check_readers(&log, &sums);
    }
}

#[test]
fn both_compute_the_same_checksums() {
    let sums = Sums {
        own: Crc::new(),
        library: Crc32::new(),
    };
    assert_eq!(sums.own.of(b"123456789"), 0xcbf4_3926);
    let mut random = Random::new(0);
    for _ in 0..10_000 {
        let bytes = random.bytes(70_000);
        assert_eq!(sums.own.of(&bytes), sums.library.checksum(&bytes));
    }
}
