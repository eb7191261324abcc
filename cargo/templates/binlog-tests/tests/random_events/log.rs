//! A random log: a description and the events behind it, as their frames are encoded here.

use binlog::consts::{BinlogChecksumAlg, BinlogVersion};
use binlog::events::FormatDescriptionEvent;
use binlog::{BinlogFileHeader, Crc32, EventRef};

use crate::EVENTS_OF_A_LOG;
use crate::case::{Case, Forms, Maker, read, written};
use crate::encoder::{Crc, Encoder};
use crate::random::Random;

/// The versions of servers, and whether they state an algorithm of checksums in their descriptions, as 5.6.1 and later do.
const SERVERS: [(&str, bool); 10] = [
    ("5.0.86-debug-log", false),
    ("5.1.73", false),
    ("5.5.62-log", false),
    ("5.6.0", false),
    ("5.6.1", true),
    ("5.7.44-log", true),
    ("8.0.36", true),
    ("8.4.2-commercial", true),
    ("9.2.0", true),
    ("10.11.6-MariaDB-log", true),
];

/// The fields of an event's header.
pub struct Header {
    pub timestamp: u32,
    pub kind: u8,
    pub server: u32,
    pub size: u32,
    pub position: u32,
    pub flags: u16,
}

impl Header {
    fn new(random: &mut Random, kind: u8, size: usize) -> Self {
        Header {
            timestamp: random.u32(),
            kind,
            server: random.u32(),
            size: size as u32,
            position: random.u32(),
            flags: random.u16(),
        }
    }

    pub fn encoded(&self) -> Vec<u8> {
        Encoder::new()
            .int(self.timestamp, 4)
            .int(self.kind, 1)
            .int(self.server, 4)
            .int(self.size, 4)
            .int(self.position, 4)
            .int(self.flags, 2)
            .done()
    }
}

/// An event and how it stands in its log.
pub struct Frame {
    pub case: Case,
    pub header: Header,
    /// The algorithm byte of a description.
    algorithm: Option<u8>,
    pub checksum: Option<u32>,
}

impl Frame {
    fn new(random: &mut Random, case: Case, algorithm: Option<u8>, crc: Option<&Crc>) -> Self {
        let end = usize::from(algorithm.is_some()) + if crc.is_some() { 4 } else { 0 };
        let header = Header::new(random, case.kind, 19 + case.body.len() + end);
        let mut frame = Frame {
            case,
            header,
            algorithm,
            checksum: None,
        };
        // The checksum of an event whose file is in use is that of the closed file.
        let mut bytes = frame.without_checksum();
        bytes[17] &= !1;
        frame.checksum = crc.map(|crc| crc.of(&bytes));
        frame
    }

    fn without_checksum(&self) -> Vec<u8> {
        let out = Encoder::new()
            .bytes(&self.header.encoded())
            .bytes(&self.case.body);
        self.algorithm
            .iter()
            .fold(out, |out, byte| out.int(*byte, 1))
            .done()
    }

    fn encoded(&self) -> Vec<u8> {
        let out = Encoder::new().bytes(&self.without_checksum());
        self.checksum
            .iter()
            .fold(out, |out, sum| out.int(*sum, 4))
            .done()
    }

    /// Checks what the library reads of the frame, but for its body.
    pub fn check_parts(&self, event: EventRef<'_>, crc: &Crc32) {
        let (header, read) = (&self.header, event.header());
        assert_eq!(
            (read.timestamp(), read.server_id()),
            (header.timestamp, header.server)
        );
        assert_eq!(
            (read.event_size(), read.log_pos()),
            (header.size, header.position)
        );
        assert_eq!(
            (read.event_type_raw(), read.flags_raw()),
            (header.kind, header.flags)
        );
        assert_eq!(event.data(), self.case.body);
        assert_eq!(event.frame(), self.encoded());
        assert_eq!(event.checksum(), self.checksum.map(u32::to_le_bytes));
        if let Some(checksum) = self.checksum {
            let off = BinlogChecksumAlg::BINLOG_CHECKSUM_ALG_OFF;
            let on = BinlogChecksumAlg::BINLOG_CHECKSUM_ALG_CRC32;
            let algorithm = if self.algorithm == Some(0) { off } else { on };
            let computed = event.calc_checksum(algorithm, |bytes| crc.checksum(bytes));
            assert_eq!(computed, Ok(checksum));
        }
    }
}

/// A log.
pub struct Log {
    pub version: BinlogVersion,
    pub frames: Vec<Frame>,
    pub bytes: Vec<u8>,
}

impl Log {
    pub fn new(random: &mut Random, makers: &[Maker], crc: &Crc) -> Self {
        let forms = Forms::new(random);
        let (server, has_algorithm) = random.pick(&SERVERS);
        let algorithm = has_algorithm.then(|| random.below(2) as u8);
        // A description that states an algorithm has a checksum even if that is none.
        let crc_of_description = algorithm.is_some().then_some(crc);
        let crc_of_events = (algorithm == Some(1)).then_some(crc);
        let description = description(random, server, algorithm, &forms);
        let mut frames = vec![Frame::new(
            random,
            description,
            algorithm,
            crc_of_description,
        )];
        for _ in 0..EVENTS_OF_A_LOG {
            let maker = random.pick(makers);
            let case = maker(random, &forms);
            frames.push(Frame::new(random, case, None, crc_of_events));
        }
        let mut bytes = BinlogFileHeader::VALUE.to_vec();
        bytes.extend(frames.iter().flat_map(Frame::encoded));
        Log {
            version: BinlogVersion::Version4,
            frames,
            bytes,
        }
    }
}

/// A format description: the versions of the format and of the server, the time, the length of headers, and the length of
/// the post-header of each type.
fn description(random: &mut Random, server: &str, algorithm: Option<u8>, forms: &Forms) -> Case {
    let created = random.u32();
    let mut server_bytes = server.as_bytes().to_vec();
    server_bytes.resize(50, 0);
    let lengths = forms.lengths.clone();
    let body = Encoder::new()
        .int(4_u64, 2)
        .bytes(&server_bytes)
        .int(created, 4)
        .int(19_u64, 1)
        .bytes(&lengths)
        .done();
    Case::new(15, body, move |event, expected| {
        let description: FormatDescriptionEvent = read(event, expected);
        assert_eq!(description.binlog_version(), BinlogVersion::Version4);
        assert_eq!(description.server_version_raw(), server_bytes);
        assert_eq!(description.create_timestamp(), created);
        assert_eq!(description.event_header_length(), 19);
        assert_eq!(description.event_type_header_lengths(), lengths);
        assert_eq!(event.footer().checksum_alg_raw(), algorithm);
        let made = FormatDescriptionEvent::new(BinlogVersion::Version4)
            .with_server_version(&server_bytes[..])
            .with_create_timestamp(created)
            .with_event_type_header_lengths(&lengths[..]);
        assert_eq!(written(&made), expected);
    })
}
