//! The numbers and the texts of errors, and of numbers that aren't known.

use std::io::ErrorKind;

use binlog::consts::{UnknownChecksumAlg, UnknownEventType, UnknownIncidentType};
use binlog::{Error, Field, Invalid};

/// Each error with its text; the number of the first is 1.
fn errors() -> [(Error, &'static str); 18] {
    let device = || ErrorKind::Other.into();
    let mismatch = Error::ChecksumMismatch {
        stored: 0x1b,
        computed: 0x1ec3a25f,
    };
    [
        (
            Error::EndOfInput,
            "the input ends within a file header or an event",
        ),
        (
            Error::InvalidFileHeader,
            "the file does not begin as a binlog",
        ),
        (
            Error::EventSizeTooSmall(18),
            "an event states the size 18, and its header alone takes 19 bytes",
        ),
        (
            Error::TooShortForChecksum,
            "an event is too short for its checksum",
        ),
        (Error::EndOfBody, "an event's body ends within a field"),
        (
            Error::InvalidData(Invalid::Subtype(3)),
            "an event's body has a value that is not allowed: Subtype(3)",
        ),
        (
            Error::RemainingBytes(2),
            "2 bytes are left after an event's body",
        ),
        (
            Error::WrongEventType(16),
            "an event of type 16 holds no GTID",
        ),
        (
            Error::UnknownChecksumAlg(2),
            "the checksum algorithm 2 is not known",
        ),
        (Error::EventTooLong, "an event is too long to be written"),
        (
            Error::Unwritable(Field::Gno),
            "the value of Gno can not be written",
        ),
        (Error::Memory, "out of memory"),
        (Error::FrameMemory, "out of memory within an event"),
        (Error::Reader(device()), "the reader failed between events"),
        (
            Error::ReaderInFrame(device()),
            "the reader failed within an event",
        ),
        (Error::Writer(device()), "the writer failed"),
        (
            mismatch,
            "checksum mismatch: stored 1b000000, computed 5fa2c31e",
        ),
        (
            Error::BadGno(1 << 63),
            "the transaction number 9223372036854775808 is not in 1 to 9223372036854775807",
        ),
    ]
}

#[test]
fn errors_have_numbers_and_texts() {
    for (number, (error, text)) in (1..).zip(errors()) {
        assert_eq!(error.number(), number);
        assert_eq!(error.to_string(), text);
    }
}

#[test]
fn errors_are_sorted() {
    for (number, (error, _)) in (1..).zip(errors()) {
        assert_eq!(error.within_frame(), [1, 3, 13, 15].contains(&number));
        assert_eq!(error.is_environment_error(), (12..=16).contains(&number));
    }
}

#[test]
fn the_field_that_can_not_be_written_is_named() {
    for (field, name) in [
        (Field::Gno, "Gno"),
        (Field::LastCommitted, "LastCommitted"),
        (Field::SequenceNumber, "SequenceNumber"),
        (Field::ImmediateCommitTimestamp, "ImmediateCommitTimestamp"),
        (Field::OriginalCommitTimestamp, "OriginalCommitTimestamp"),
        (Field::ImmediateServerVersion, "ImmediateServerVersion"),
        (Field::Tag, "Tag"),
        (Field::Sids, "Sids"),
    ] {
        let text = format!("the value of {name} can not be written");
        assert_eq!(Error::Unwritable(field).to_string(), text);
    }
}

#[test]
fn the_number_that_is_not_known_is_said() {
    assert_eq!(
        UnknownEventType(41).to_string(),
        "the event type 41 is not known"
    );
    assert_eq!(
        UnknownChecksumAlg(2).to_string(),
        "the checksum algorithm 2 is not known"
    );
    assert_eq!(
        UnknownIncidentType(258).to_string(),
        "the incident type 258 is not known"
    );
}
