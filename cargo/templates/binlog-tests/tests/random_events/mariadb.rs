//! MariaDB's own events.

use binlog::EventRef;
use binlog::mariadb::{
    AnnotateRowsEvent, BinlogCheckpointEvent, GtidExtra, GtidListEvent, MariaEventData, MariaGtid,
    MariaGtidEvent, MariaGtidFlags, StartEncryptionEvent, XaId, read_maria_data,
};

use crate::case::{Case, Forms, Maker, written};
use crate::encoder::Encoder;
use crate::random::Random;

pub const MAKERS: [Maker; 5] = [annotate_rows, checkpoint, gtid, gtid_list, start_encryption];

/// The flags of a GTID that a commit id follows, and those that an XA id follows.
const HAS_COMMIT_ID: u8 = 2;
const HAS_XA_ID: u8 = 64 | 128;

fn data(event: EventRef<'_>) -> MariaEventData<'_> {
    let kind = event.header().event_type_raw();
    read_maria_data(event.fde(), kind, event.data())
        .unwrap()
        .unwrap()
}

fn annotate_rows(random: &mut Random, _: &Forms) -> Case {
    let query = random.bytes(70_000);
    Case::new(160, query.clone(), move |event, expected| {
        let MariaEventData::AnnotateRowsEvent(rows) = data(event) else {
            panic!("{event:?}")
        };
        assert_eq!(rows.query_raw(), query);
        assert_eq!(written(&rows), expected);
        assert_eq!(written(&AnnotateRowsEvent::new(&query[..])), expected);
    })
}

fn checkpoint(random: &mut Random, _: &Forms) -> Case {
    let name = random.bytes(600);
    let body = Encoder::new().counted(&name, 4).done();
    Case::new(161, body, move |event, expected| {
        let MariaEventData::BinlogCheckpointEvent(log) = data(event) else {
            panic!("{event:?}")
        };
        assert_eq!(log.name_raw(), name);
        assert_eq!(written(&log), expected);
        assert_eq!(written(&BinlogCheckpointEvent::new(&name[..])), expected);
    })
}

/// The extra flags of a GTID and what follows them.
struct Extra {
    flags: u8,
    engines: u8,
    sequence: u64,
    thread: u32,
    padding: Vec<u8>,
}

impl Extra {
    /// Extra flags, and behind them at least so many bytes of padding.
    fn new(random: &mut Random, least: usize) -> Self {
        let mut padding = random.bytes(20);
        padding.resize(padding.len().max(least), 0);
        Extra {
            flags: random.u8(),
            engines: random.u8(),
            sequence: random.u64(),
            thread: random.u32(),
            padding,
        }
    }

    fn encode(&self, out: Encoder) -> Encoder {
        out.int(self.flags, 1)
            .maybe(self.flags & 1 != 0, |out| out.int(self.engines, 1))
            .maybe(self.flags & (4 | 8) != 0, |out| out.int(self.sequence, 8))
            .maybe(self.flags & 16 != 0, |out| out.int(self.thread, 4))
            .bytes(&self.padding)
    }

    fn made(&self) -> GtidExtra<'_> {
        GtidExtra::empty()
            .with_engines(self.engines)
            .with_alter_sequence(self.sequence)
            .with_thread_id(self.thread)
            .with_padding(&self.padding[..])
            .with_flags(self.flags)
    }

    fn check(&self, extra: &GtidExtra<'_>) {
        assert_eq!(
            (extra.flags(), extra.padding_raw()),
            (self.flags, &self.padding[..])
        );
        assert_eq!(
            extra.engines(),
            (self.flags & 1 != 0).then_some(self.engines)
        );
        assert_eq!(
            extra.alter_sequence(),
            (self.flags & (4 | 8) != 0).then_some(self.sequence)
        );
        assert_eq!(
            extra.thread_id(),
            (self.flags & 16 != 0).then_some(self.thread)
        );
    }
}

/// Without a commit id and an XA id at least six bytes come after the flags.
fn gtid(random: &mut Random, _: &Forms) -> Case {
    let (sequence, domain, flags) = (random.u64(), random.u32(), random.u8());
    let (commit_id, format_id) = (random.u64(), random.u32());
    let (global, branch) = (random.bytes(64), random.bytes(64));
    let is_short = flags & (HAS_COMMIT_ID | HAS_XA_ID) == 0;
    let least = if is_short { 5 } else { 0 };
    let extra = (is_short || random.flag()).then(|| Extra::new(random, least));
    let out = Encoder::new()
        .int(sequence, 8)
        .int(domain, 4)
        .int(flags, 1)
        .maybe(flags & HAS_COMMIT_ID != 0, |out| out.int(commit_id, 8))
        .maybe(flags & HAS_XA_ID != 0, |out| {
            let out = out
                .int(format_id, 4)
                .int(global.len() as u64, 1)
                .int(branch.len() as u64, 1);
            out.bytes(&global).bytes(&branch)
        });
    let body = extra
        .iter()
        .fold(out, |out, extra| extra.encode(out))
        .done();
    Case::new(162, body, move |event, expected| {
        let MariaEventData::GtidEvent(gtid) = data(event) else {
            panic!("{event:?}")
        };
        assert_eq!(
            (gtid.sequence(), gtid.domain(), gtid.flags_raw()),
            (sequence, domain, flags)
        );
        assert_eq!(
            gtid.commit_id(),
            (flags & HAS_COMMIT_ID != 0).then_some(commit_id)
        );
        assert_eq!(gtid.xa_id().is_some(), flags & HAS_XA_ID != 0);
        if let Some(id) = gtid.xa_id() {
            assert_eq!(
                (id.format_id(), id.gtrid(), id.bqual()),
                (format_id, &global[..], &branch[..])
            );
        }
        assert_eq!(gtid.extra().is_some(), extra.is_some());
        if let Some((read, extra)) = gtid.extra().zip(extra.as_ref()) {
            extra.check(read);
        }
        assert_eq!(written(&gtid), expected);
        let made = MariaGtidEvent::new(domain, sequence)
            .with_flags(MariaGtidFlags::from_bits_retain(flags))
            .with_commit_id(commit_id)
            .with_xa_id(XaId::new(format_id, &global[..], &branch[..]));
        let made = match &extra {
            Some(extra) => made.with_extra(extra.made()),
            None => made,
        };
        assert_eq!(written(&made), expected);
    })
}

/// The flags are the high four bits of the count; two reserved bytes follow an empty list.
fn gtid_list(random: &mut Random, _: &Forms) -> Case {
    let flags = random.below(16) as u8;
    let count = random.len(600);
    let gtids: Vec<_> = (0..count)
        .map(|_| (random.u32(), random.u32(), random.u64()))
        .collect();
    let out = Encoder::new().int(u64::from(flags) << 28 | count as u64, 4);
    let out = gtids.iter().fold(out, |out, (domain, server, sequence)| {
        out.int(*domain, 4).int(*server, 4).int(*sequence, 8)
    });
    let body = out.maybe(count == 0, |out| out.int(0_u64, 2)).done();
    Case::new(163, body, move |event, expected| {
        let MariaEventData::GtidListEvent(list) = data(event) else {
            panic!("{event:?}")
        };
        let entries = list.entries().iter();
        assert!(
            entries
                .map(|gtid| (gtid.domain(), gtid.server_id(), gtid.sequence()))
                .eq(gtids.iter().copied())
        );
        assert_eq!(list.flags(), flags);
        assert_eq!(written(&list), expected);
        let made = gtids
            .iter()
            .map(|(domain, server, sequence)| MariaGtid::new(*domain, *server, *sequence));
        assert_eq!(
            written(&GtidListEvent::new(made.collect()).with_flags(flags)),
            expected
        );
    })
}

fn start_encryption(random: &mut Random, _: &Forms) -> Case {
    let (scheme, version, nonce) = (random.u8(), random.u32(), random.array::<12>());
    let body = Encoder::new()
        .int(scheme, 1)
        .int(version, 4)
        .bytes(&nonce)
        .done();
    Case::new(164, body, move |event, expected| {
        let MariaEventData::StartEncryptionEvent(start) = data(event) else {
            panic!("{event:?}")
        };
        assert_eq!(
            (start.scheme(), start.key_version(), start.nonce()),
            (scheme, version, nonce)
        );
        assert_eq!(written(&start), expected);
        assert_eq!(
            written(&StartEncryptionEvent::new(scheme, version, nonce)),
            expected
        );
    })
}
