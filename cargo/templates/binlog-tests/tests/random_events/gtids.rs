//! GTIDs and lists of GTIDs.

use binlog::consts::GtidFlags;
use binlog::events::{
    AnonymousGtidEvent, EventData, GnoInterval, GtidEvent, PreviousGtidsEvent, PreviousGtidsSid,
    Tag,
};
use binlog::raw::Flags;

use crate::case::{Case, Forms, Maker, read, written};
use crate::encoder::Encoder;
use crate::random::Random;

pub const MAKERS: [Maker; 4] = [gtid, anonymous_gtid, tagged_gtid, previous_gtids];

/// The version of a server that states none.
const NO_VERSION: u32 = 999_999;

/// The values of a GTID event.
#[derive(Clone)]
struct Values {
    flags: u8,
    sid: [u8; 16],
    gno: u64,
    last_committed: u64,
    sequence_number: u64,
    /// The times of the commit on the immediate and the original server.
    times: [u64; 2],
    length: u64,
    versions: [u32; 2],
    ticket: u64,
}

impl Values {
    fn new(random: &mut Random, bits: u32, bits_of_times: [u32; 2], bits_of_version: u32) -> Self {
        let time = random.number(bits_of_times[0]);
        let version = random.number(bits_of_version) as u32;
        Values {
            flags: random.u8(),
            sid: random.array(),
            gno: random.number(bits),
            last_committed: random.number(bits),
            sequence_number: random.number(bits),
            times: [
                time,
                if random.flag() {
                    time
                } else {
                    random.number(bits_of_times[1])
                },
            ],
            length: random.u64(),
            versions: [version, if random.flag() { version } else { random.u32() }],
            ticket: 0,
        }
    }

    /// What the fields are that older servers don't write.
    fn first(self, parts: u64) -> Self {
        Values {
            last_committed: if parts > 0 { self.last_committed } else { 0 },
            sequence_number: if parts > 0 { self.sequence_number } else { 0 },
            times: if parts > 1 { self.times } else { [0; 2] },
            length: if parts > 2 { self.length } else { 0 },
            versions: if parts > 3 {
                self.versions
            } else {
                [NO_VERSION; 2]
            },
            ..self
        }
    }

    /// Two numbers, of which the second follows the first if the first's top bit is set.
    fn pair(out: Encoder, pair: [u64; 2], width: usize, has_second: bool) -> Encoder {
        let top = u64::from(has_second) << (8 * width - 1);
        out.int(pair[0] | top, width)
            .maybe(has_second, |out| out.int(pair[1], width))
    }

    /// The body without a tag, up to so many of the four parts that came with later servers: the clock, the times, the
    /// length, the versions. Where both times or versions are the same, the second may follow too.
    fn untagged(&self, parts: u64, has_seconds: bool) -> Vec<u8> {
        let versions = self.versions.map(u64::from);
        let has_second = |pair: [u64; 2]| has_seconds || pair[0] != pair[1];
        Encoder::new()
            .int(self.flags, 1)
            .bytes(&self.sid)
            .int(self.gno, 8)
            .maybe(parts > 0, |out| {
                out.int(2_u64, 1)
                    .int(self.last_committed, 8)
                    .int(self.sequence_number, 8)
            })
            .maybe(parts > 1, |out| {
                Values::pair(out, self.times, 7, has_second(self.times))
            })
            .maybe(parts > 2, |out| out.lenenc(self.length))
            .maybe(parts > 3, |out| {
                Values::pair(out, versions, 4, has_second(versions))
            })
            .done()
    }

    /// The body with a tag, with this last field that may not be ignored, and with the original time, the original
    /// version and the ticket even where they are the usual ones.
    fn tagged(&self, tag: &str, last: u64, has_all: bool) -> Vec<u8> {
        let [time, original_time] = self.times;
        let [version, original_version] = self.versions.map(u64::from);
        let number = |out: Encoder, id: u64, number: u64| out.varlen(id).varlen(number);
        let signed =
            |out: Encoder, id: u64, number: u64| out.varlen(id).varlen_signed(number.cast_signed());
        let out = number(Encoder::new(), 0, self.flags.into()).varlen(1);
        let out = self
            .sid
            .iter()
            .fold(out, |out, byte| out.varlen((*byte).into()));
        let out = signed(out, 2, self.gno);
        let out = number(out, 3, tag.len() as u64).bytes(tag.as_bytes());
        let out = signed(out, 4, self.last_committed);
        let out = signed(out, 5, self.sequence_number);
        let out = number(out, 6, time);
        let out = out.maybe(has_all || original_time != time, |out| {
            number(out, 7, original_time)
        });
        let out = number(out, 8, self.length);
        let out = number(out, 9, version);
        let out = out.maybe(has_all || original_version != version, |out| {
            number(out, 10, original_version)
        });
        let out = out.maybe(has_all || self.ticket != 0, |out| {
            number(out, 11, self.ticket)
        });
        sized(last, &out.done())
    }

    fn check(&self, event: &GtidEvent) {
        assert_eq!(
            (event.flags_raw(), event.sid(), event.gno()),
            (self.flags, self.sid, self.gno)
        );
        assert_eq!(event.flags(), Flags::from_bits_truncate(self.flags));
        assert_eq!(event.last_committed(), self.last_committed);
        assert_eq!(event.sequence_number(), self.sequence_number);
        assert_eq!(
            [
                event.immediate_commit_timestamp(),
                event.original_commit_timestamp()
            ],
            self.times
        );
        assert_eq!(event.tx_length(), self.length);
        assert_eq!(
            [
                event.immediate_server_version(),
                event.original_server_version()
            ],
            self.versions
        );
        assert_eq!(event.commit_group_ticket(), self.ticket);
    }

    /// The library's event with these values, made of one that has its GTID alone.
    fn with_others(&self, event: GtidEvent) -> GtidEvent {
        event
            .with_flags(GtidFlags::from_bits_retain(self.flags))
            .with_last_committed(self.last_committed)
            .with_sequence_number(self.sequence_number)
            .with_immediate_commit_timestamp(self.times[0])
            .with_original_commit_timestamp(self.times[1])
            .with_tx_length(self.length)
            .with_immediate_server_version(self.versions[0])
            .with_original_server_version(self.versions[1])
            .with_commit_group_ticket(self.ticket)
    }
}

/// Fields behind the serialization version 1, the size of the whole body, and the last field that may not be ignored.
fn sized(last: u64, fields: &[u8]) -> Vec<u8> {
    let with_size = |size| {
        Encoder::new()
            .varlen(1)
            .varlen(size)
            .varlen(last)
            .bytes(fields)
            .done()
    };
    let mut body = with_size(0);
    // The size may take one byte more once it is stated.
    for _ in 0..2 {
        body = with_size(body.len() as u64);
    }
    body
}

/// The values of a GTID without a tag, its body, and what is written of it.
fn untagged(random: &mut Random) -> (Values, bool, Vec<u8>, Vec<u8>) {
    let parts = random.pick(&[0, 1, 2, 3, 4, 4, 4, 4]);
    let values = Values::new(random, 64, [55, 56], 31).first(parts);
    let has_clock = parts > 0;
    let body = values.untagged(parts, random.one_in(4));
    let written = values.untagged(if has_clock { 4 } else { 0 }, false);
    (values, has_clock, body, written)
}

/// The library's event without a tag. A new one has a clock.
fn made(values: &Values) -> GtidEvent {
    values.with_others(GtidEvent::new(values.sid, values.gno))
}

fn gtid(random: &mut Random, _: &Forms) -> Case {
    let (values, has_clock, body, written_body) = untagged(random);
    let case = Case::new(33, body, move |event, expected| {
        let gtid: GtidEvent = read(event, expected);
        values.check(&gtid);
        assert_eq!(
            (gtid.tag(), gtid.lc_typecode()),
            (None, has_clock.then_some(2))
        );
        assert!(!has_clock || written(&made(&values)) == expected);
    });
    case.written_as(written_body)
}

fn anonymous_gtid(random: &mut Random, _: &Forms) -> Case {
    let (values, has_clock, body, written_body) = untagged(random);
    let case = Case::new(34, body, move |event, expected| {
        let gtid: AnonymousGtidEvent = read(event, expected);
        values.check(&gtid.0);
        assert!(!has_clock || written(&AnonymousGtidEvent(made(&values))) == expected);
    });
    case.written_as(written_body)
}

fn tag(random: &mut Random) -> String {
    const FIRST: &[u8] = b"abcdefghijklmnopqrstuvwxyzABCXYZ_";
    const OTHERS: &[u8] = b"abcdefghijklmnopqrstuvwxyzABCXYZ_0123456789";
    let first = random.pick(FIRST);
    let count = random.below(32);
    let others = (0..count).map(|_| random.pick(OTHERS));
    [first]
        .into_iter()
        .chain(others.collect::<Vec<_>>())
        .map(char::from)
        .collect()
}

fn tagged_gtid(random: &mut Random, _: &Forms) -> Case {
    let text = tag(random);
    let ticket = if random.flag() { random.u64() } else { 0 };
    let values = Values {
        ticket,
        ..Values::new(random, 63, [64, 64], 32)
    };
    let last = if random.flag() { 0 } else { random.below(12) };
    let body = values.tagged(&text, last, random.one_in(4));
    let written_body = values.tagged(&text, 0, false);
    let case = Case::new(42, body, move |event, expected| {
        let Ok(Some(EventData::GtidEvent(gtid))) = event.read_data() else {
            panic!("not a GTID: {event:?}");
        };
        values.check(&gtid);
        assert_eq!(gtid.tag().map(Tag::as_str), Some(&text[..]));
        let tag = Tag::new(&text[..]).unwrap().into_owned();
        let made = values.with_others(GtidEvent::new_tagged(values.sid, tag, values.gno));
        assert_eq!(written(&made), expected);
    });
    case.written_as(written_body)
}

/// An entry of previous GTIDs.
struct Entry {
    sid: [u8; 16],
    tag: Option<String>,
    intervals: Vec<[u64; 2]>,
}

impl Entry {
    fn new(random: &mut Random, has_tag: bool) -> Self {
        let count = random.below(6);
        Entry {
            sid: random.array(),
            tag: has_tag.then(|| tag(random)),
            intervals: (0..count).map(|_| [random.u64(), random.u64()]).collect(),
        }
    }

    fn encode(&self, out: Encoder, has_tags: bool) -> Encoder {
        let tag = self.tag.as_deref().unwrap_or_default();
        let out = out.bytes(&self.sid);
        let out = out.maybe(has_tags, |out| {
            out.varlen(tag.len() as u64).bytes(tag.as_bytes())
        });
        let out = out.int(self.intervals.len() as u64, 8);
        self.intervals
            .iter()
            .fold(out, |out, [start, end]| out.int(*start, 8).int(*end, 8))
    }

    fn made(&self) -> PreviousGtidsSid<'_> {
        let tag = self.tag.as_deref().map(|text| Tag::new(text).unwrap());
        let intervals = self
            .intervals
            .iter()
            .map(|[start, end]| GnoInterval::new(*start, *end));
        PreviousGtidsSid::new(self.sid, tag, intervals.collect())
    }
}

/// Entries after their count; in the form with tags the count is in the middle of the first number.
fn previous(entries: &[Entry], has_tags: bool) -> Vec<u8> {
    let count = entries.len() as u64;
    let head = if has_tags {
        1 << 56 | count << 8 | 1
    } else {
        count
    };
    let out = Encoder::new().int(head, 8);
    entries
        .iter()
        .fold(out, |out, entry| entry.encode(out, has_tags))
        .done()
}

fn previous_gtids(random: &mut Random, _: &Forms) -> Case {
    let count = if random.one_in(32) {
        random.below(300)
    } else {
        random.below(5)
    };
    let has_tags = random.flag();
    let entries: Vec<_> = (0..count)
        .map(|_| {
            let has_tag = has_tags && random.flag();
            Entry::new(random, has_tag)
        })
        .collect();
    let needs_tags = entries.iter().any(|entry| entry.tag.is_some());
    let (body, written_body) = (previous(&entries, has_tags), previous(&entries, needs_tags));
    let case = Case::new(35, body, move |event, expected| {
        let gtids: PreviousGtidsEvent = read(event, expected);
        assert_eq!(gtids.sids().len(), entries.len());
        for (sid, entry) in gtids.sids().iter().zip(&entries) {
            assert_eq!(
                (sid.uuid(), sid.tag().map(Tag::as_str)),
                (entry.sid, entry.tag.as_deref())
            );
            let intervals = sid
                .intervals()
                .iter()
                .map(|interval| [interval.start(), interval.end()]);
            assert!(intervals.eq(entry.intervals.iter().copied()));
        }
        let made = PreviousGtidsEvent::new(entries.iter().map(Entry::made).collect());
        assert_eq!(written(&made), expected);
    });
    case.written_as(written_body)
}
