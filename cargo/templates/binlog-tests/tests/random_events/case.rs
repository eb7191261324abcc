//! A random event: its body as it is encoded here, and what the library has to read of it.

use binlog::consts::BinlogVersion;
use binlog::raw::MySerialize;
use binlog::{BinlogEvent, BinlogStruct, EventRef};

use crate::random::Random;

/// The body of an event.
pub struct Case {
    /// The raw event type.
    pub kind: u8,
    /// The encoded body.
    pub body: Vec<u8>,
    /// The body that is written of it, where that is another one.
    pub written: Option<Vec<u8>>,
    /// Checks what the library reads of the event.
    pub check: Box<dyn Fn(EventRef<'_>, &[u8])>,
}

impl Case {
    /// A body that is written as it was read. `check` gets the event, and what has to be written of it.
    pub fn new(kind: u8, body: Vec<u8>, check: impl Fn(EventRef<'_>, &[u8]) + 'static) -> Self {
        Case {
            kind,
            body,
            written: None,
            check: Box::new(check),
        }
    }

    /// The same body, of which this one is written.
    pub fn written_as(self, written: Vec<u8>) -> Self {
        Case {
            written: Some(written),
            ..self
        }
    }

    /// What has to be written of the body.
    pub fn written(&self) -> &[u8] {
        self.written.as_deref().unwrap_or(&self.body)
    }
}

/// Makes a random event under the forms of a description.
pub type Maker = fn(&mut Random, &Forms) -> Case;

/// What the description in force says of the forms of bodies: the length of each type's post-header.
pub struct Forms {
    pub lengths: Vec<u8>,
}

/// The types from 1 on whose post-header isn't empty, as servers 5.7 and 8.0 describe them.
const LENGTHS: [(u8, u8); 21] = [
    (1, 56),
    (2, 13),
    (4, 8),
    (9, 4),
    (11, 4),
    (15, 99),
    (17, 4),
    (18, 26),
    (19, 8),
    (23, 8),
    (24, 8),
    (25, 8),
    (26, 2),
    (30, 10),
    (31, 10),
    (32, 10),
    (33, 42),
    (34, 42),
    (36, 18),
    (37, 52),
    (39, 10),
];

/// The types that a description may give another post-header, and the lengths for which their bodies have a form.
const OTHER_LENGTHS: [(u8, &[u8]); 10] = [
    (2, &[13, 14, 16]),
    (16, &[0, 1, 5]),
    (19, &[6, 8]),
    (23, &[6, 8, 10]),
    (24, &[6, 8, 10]),
    (25, &[6, 8, 10]),
    (30, &[6, 8, 10]),
    (31, &[6, 8, 10]),
    (32, &[6, 8, 10]),
    (39, &[6, 8, 10]),
];

impl Forms {
    /// Those of a server, or, once in four times, others.
    pub fn new(random: &mut Random) -> Self {
        let mut lengths = vec![0; 42];
        for (kind, len) in LENGTHS {
            lengths[usize::from(kind) - 1] = len;
        }
        if random.one_in(4) {
            for (kind, choices) in OTHER_LENGTHS {
                lengths[usize::from(kind) - 1] = random.pick(choices);
            }
        }
        // What a description leaves out is as servers describe it.
        let is_usual = OTHER_LENGTHS
            .iter()
            .all(|(kind, _)| Forms::usual(*kind) == lengths[usize::from(*kind) - 1]);
        if is_usual {
            lengths.truncate(random.below(43) as usize);
        }
        Forms { lengths }
    }

    fn usual(kind: u8) -> u8 {
        LENGTHS
            .iter()
            .find(|(other, _)| *other == kind)
            .map_or(0, |(_, len)| *len)
    }

    /// The length of the post-header of a type.
    pub fn post_header(&self, kind: u8) -> u8 {
        self.lengths
            .get(usize::from(kind) - 1)
            .copied()
            .unwrap_or_else(|| Forms::usual(kind))
    }
}

/// What is written of a value. Its length is what the value says.
pub fn written<'a>(value: &impl BinlogStruct<'a>) -> Vec<u8> {
    let bytes = serialized(value);
    assert_eq!(bytes.len(), value.len(BinlogVersion::Version4));
    bytes
}

/// What is written of a value.
pub fn serialized(value: &impl MySerialize) -> Vec<u8> {
    let mut bytes = Vec::new();
    value.serialize(&mut bytes).unwrap();
    bytes
}

/// The body of an event, read as this type, of which these bytes have to be written.
pub fn read<'a, T: BinlogEvent<'a>>(event: EventRef<'a>, expected: &[u8]) -> T {
    let body: T = event.read_event().unwrap();
    assert_eq!(written(&body), expected);
    body
}
