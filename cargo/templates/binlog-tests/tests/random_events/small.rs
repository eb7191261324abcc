//! The smaller bodies, and those that are kept as bytes.

use binlog::consts::{IncidentType, IntvarEventType};
use binlog::events::{
    BeginLoadQueryEvent, EventData, IncidentEvent, IntvarEvent, RandEvent, RotateEvent,
    RowsQueryEvent, XidEvent,
};

use crate::case::{Case, Forms, Maker, read, written};
use crate::encoder::Encoder;
use crate::random::Random;

pub const MAKERS: [Maker; 10] = [
    rotate,
    xid,
    intvar,
    rand,
    begin_load_query,
    incident,
    rows_query,
    kept,
    kept_block,
    empty,
];

fn rotate(random: &mut Random, _: &Forms) -> Case {
    let (position, name) = (random.u64(), random.bytes(600));
    let body = Encoder::new().int(position, 8).bytes(&name).done();
    Case::new(4, body, move |event, expected| {
        let rotate: RotateEvent = read(event, expected);
        assert_eq!(
            (rotate.position(), rotate.name_raw()),
            (position, &name[..])
        );
        assert_eq!(rotate.name(), String::from_utf8_lossy(&name));
        assert_eq!(written(&RotateEvent::new(position, &name[..])), expected);
    })
}

fn xid(random: &mut Random, forms: &Forms) -> Case {
    let (xid, skipped) = (random.u64(), forms.post_header(16));
    let plain = Encoder::new().int(xid, 8).done();
    let body = [
        random.array::<8>()[..skipped.into()].to_vec(),
        plain.clone(),
    ]
    .concat();
    let case = Case::new(16, body, move |event, expected| {
        assert_eq!(read::<XidEvent>(event, expected), XidEvent { xid });
    });
    case.written_as(plain)
}

fn intvar(random: &mut Random, _: &Forms) -> Case {
    let types = [
        IntvarEventType::INVALID_INT_EVENT,
        IntvarEventType::LAST_INSERT_ID_EVENT,
        IntvarEventType::INSERT_ID_EVENT,
    ];
    let (number, value) = (random.below(3), random.u64());
    let subtype = types[number as usize];
    let body = Encoder::new().int(number, 1).int(value, 8).done();
    Case::new(5, body, move |event, expected| {
        let intvar: IntvarEvent = read(event, expected);
        assert_eq!((intvar.subtype(), intvar.value()), (subtype, value));
        assert_eq!(written(&IntvarEvent::new(subtype, value)), expected);
    })
}

fn rand(random: &mut Random, _: &Forms) -> Case {
    let (first, second) = (random.u64(), random.u64());
    let body = Encoder::new().int(first, 8).int(second, 8).done();
    Case::new(13, body, move |event, expected| {
        let rand: RandEvent = read(event, expected);
        assert_eq!((rand.seed1.0, rand.seed2.0), (first, second));
    })
}

fn begin_load_query(random: &mut Random, _: &Forms) -> Case {
    let (file, data) = (random.u32(), random.bytes(70_000));
    let body = Encoder::new().int(file, 4).bytes(&data).done();
    Case::new(17, body, move |event, expected| {
        let block: BeginLoadQueryEvent = read(event, expected);
        assert_eq!((block.file_id(), block.block_data()), (file, &data[..]));
        assert_eq!(
            written(&BeginLoadQueryEvent::new(file).with_block_data(&data[..])),
            expected
        );
    })
}

fn incident(random: &mut Random, _: &Forms) -> Case {
    let number = if random.flag() {
        random.below(2)
    } else {
        random.number(16)
    } as u16;
    let message = random.bytes(255);
    let body = Encoder::new().int(number, 2).counted(&message, 1).done();
    Case::new(26, body, move |event, expected| {
        let incident: IncidentEvent = read(event, expected);
        assert_eq!(incident.message_raw(), message);
        match incident.incident_type() {
            Ok(kind) => {
                let known = [IncidentType::NONE, IncidentType::LOST_EVENTS];
                assert_eq!(kind, known[usize::from(number)]);
                assert_eq!(written(&IncidentEvent::new(kind, &message[..])), expected);
            }
            Err(unknown) => assert_eq!((unknown.0, number > 1), (number, true)),
        }
    })
}

/// Its first byte is a length of which readers take no notice: it is written as 0.
fn rows_query(random: &mut Random, _: &Forms) -> Case {
    let query = random.bytes(70_000);
    let body = Encoder::new()
        .int(query.len().min(255) as u64, 1)
        .bytes(&query)
        .done();
    let written_body = Encoder::new().int(0_u64, 1).bytes(&query).done();
    let case = Case::new(29, body, move |event, expected| {
        assert_eq!(read::<RowsQueryEvent>(event, expected).query_raw(), query);
        assert_eq!(written(&RowsQueryEvent::new(&query[..])), expected);
    });
    case.written_as(written_body)
}

/// Bodies that the library keeps as bytes.
fn kept(random: &mut Random, _: &Forms) -> Case {
    let kind = random.pick(&[1, 6, 8, 10, 12, 20, 21, 22, 28, 36, 37, 38, 40]);
    let bytes = random.bytes(600);
    Case::new(kind, bytes.clone(), move |event, _| {
        assert_eq!(event.data(), bytes)
    })
}

/// APPEND_BLOCK and DELETE_FILE: the id of a file, and the block's data.
fn kept_block(random: &mut Random, _: &Forms) -> Case {
    let (file, data) = (random.u32(), random.bytes(600));
    let is_block = random.flag();
    let body = Encoder::new()
        .int(file, 4)
        .maybe(is_block, |body| body.bytes(&data))
        .done();
    let bytes = body.clone();
    Case::new(
        if is_block { 9 } else { 11 },
        body,
        move |event, _| match event.read_data() {
            Ok(Some(EventData::AppendBlockEvent(kept))) if is_block => {
                assert_eq!(kept.as_bytes(), bytes)
            }
            Ok(Some(EventData::DeleteFileEvent(kept))) if !is_block => {
                assert_eq!(kept.as_bytes(), bytes)
            }
            other => panic!("{other:?}"),
        },
    )
}

/// STOP, SLAVE and HEARTBEAT: of their bodies nothing is read or written.
fn empty(random: &mut Random, _: &Forms) -> Case {
    let kind = random.pick(&[3, 7, 27]);
    let case = Case::new(kind, random.bytes(40), move |event, _| {
        match event.read_data() {
            Ok(Some(EventData::StopEvent)) => assert_eq!(kind, 3),
            Ok(Some(EventData::SlaveEvent)) => assert_eq!(kind, 7),
            Ok(Some(EventData::HeartbeatEvent)) => assert_eq!(kind, 27),
            other => panic!("{other:?}"),
        }
    });
    case.written_as(Vec::new())
}
