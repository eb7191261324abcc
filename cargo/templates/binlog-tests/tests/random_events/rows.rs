//! Table maps and rows.

use binlog::events::{EventData, RowsEvent, TableMapEvent};
use binlog::raw::BitView;

use crate::case::{Case, Forms, Maker, read};
use crate::encoder::Encoder;
use crate::random::Random;

pub const MAKERS: [Maker; 4] = [table_map, older_rows, rows, partial_rows];

/// Bits of columns, and what fills their last byte.
#[derive(Clone)]
struct Bits(Vec<bool>, u8);

impl Bits {
    fn new(random: &mut Random, count: usize) -> Self {
        Bits(
            (0..count).map(|_| random.flag()).collect(),
            random.next() as u8,
        )
    }

    fn is(&self, view: BitView<'_>) -> bool {
        let bits = (0..).map_while(|index| view.bit(index));
        view.len() == self.0.len() as u64 && bits.eq(self.0.iter().copied())
    }
}

fn columns(random: &mut Random) -> usize {
    if random.one_in(16) {
        random.below(300) as usize
    } else {
        random.below(20) as usize
    }
}

/// An id that takes as many bytes as the post-header says.
fn table_id(random: &mut Random, post_header: u8) -> u64 {
    random.number(if post_header == 6 { 32 } else { 48 })
}

fn width_of_id(post_header: u8) -> usize {
    if post_header == 6 { 4 } else { 6 }
}

fn table_map(random: &mut Random, forms: &Forms) -> Case {
    let post_header = forms.post_header(19);
    let (id, flags) = (table_id(random, post_header), random.u16());
    let (database, table) = (random.bytes(255), random.bytes(255));
    let count = columns(random);
    let types: Vec<_> = (0..count).map(|_| random.next() as u8).collect();
    let (metadata, nullable) = (random.bytes(600), Bits::new(random, count));
    let optional = random.bytes(600);
    let after_id = Encoder::new()
        .int(flags, 2)
        .counted(&database, 1)
        .int(0_u64, 1)
        .counted(&table, 1)
        .int(0_u64, 1)
        .lenenc_counted(&types)
        .lenenc_counted(&metadata)
        .bits(&nullable.0, nullable.1)
        .bytes(&optional)
        .done();
    let body = |width| Encoder::new().int(id, width).bytes(&after_id).done();
    let (encoded, written) = (body(width_of_id(post_header)), body(6));
    let case = Case::new(19, encoded, move |event, expected| {
        let map: TableMapEvent = read(event, expected);
        assert_eq!((map.table_id(), map.flags_raw()), (id, flags));
        assert_eq!(
            (map.database_name_raw(), map.table_name_raw()),
            (&database[..], &table[..])
        );
        assert_eq!(
            (map.columns_count(), map.columns_type_raw()),
            (count as u64, &types[..])
        );
        assert_eq!(map.columns_metadata_raw(), metadata);
        assert!(nullable.is(map.null_bitmask()));
        assert_eq!(map.optional_metadata_raw(), optional);
    });
    case.written_as(written)
}

fn older_rows(random: &mut Random, forms: &Forms) -> Case {
    let kind = random.pick(&[23, 24, 25]);
    rows_of(kind, random, forms)
}

fn rows(random: &mut Random, forms: &Forms) -> Case {
    let kind = random.pick(&[30, 31, 32]);
    rows_of(kind, random, forms)
}

fn partial_rows(random: &mut Random, forms: &Forms) -> Case {
    rows_of(39, random, forms)
}

/// A row event of this type. An older one keeps no extra bytes, and isn't written with any.
fn rows_of(kind: u8, random: &mut Random, forms: &Forms) -> Case {
    let post_header = forms.post_header(kind);
    let is_older = kind < 30;
    let (id, flags) = (table_id(random, post_header), random.u16());
    let extra = if post_header == 10 {
        random.bytes(600)
    } else {
        Vec::new()
    };
    let count = columns(random);
    let before = (!matches!(kind, 23 | 30)).then(|| Bits::new(random, count));
    let after = (!matches!(kind, 25 | 32)).then(|| Bits::new(random, count));
    let data = random.bytes(70_000);
    let body = |width, has_extra| {
        let front = Encoder::new().int(id, width).int(flags, 2);
        let front = front.maybe(has_extra, |out| {
            out.int(extra.len() as u64 + 2, 2).bytes(&extra)
        });
        let images = [&before, &after].into_iter().flatten();
        let front = images.fold(front.lenenc(count as u64), |out, bits| {
            out.bits(&bits.0, bits.1)
        });
        front.bytes(&data).done()
    };
    let encoded = body(width_of_id(post_header), post_header == 10);
    let written = body(6, !is_older);
    let case = Case::new(kind, encoded, move |event, _| {
        let Ok(Some(EventData::RowsEvent(rows))) = event.read_data() else {
            panic!("no rows in {event:?}");
        };
        let rows: &RowsEvent = rows.event();
        assert_eq!((rows.table_id(), rows.flags_raw()), (id, flags));
        assert_eq!(rows.num_columns(), count as u64);
        assert_eq!(rows.extra_data(), (!is_older).then_some(&extra[..]));
        for (image, bits) in [
            (rows.columns_before_image(), &before),
            (rows.columns_after_image(), &after),
        ] {
            assert_eq!(image.is_some(), bits.is_some());
            assert!(
                image
                    .zip(bits.as_ref())
                    .is_none_or(|(image, bits)| bits.is(image))
            );
        }
        assert_eq!(rows.rows_data(), data);
    });
    case.written_as(written)
}
