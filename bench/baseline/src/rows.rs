//! Table maps, the newest of each table's id, and row events.

const SHORT_ID: u8 = 6;
const WITH_EXTRA: u8 = 10;

pub struct TableMap<'a> {
    pub id: u64,
    pub flags: u16,
    pub database: &'a [u8],
    pub table: &'a [u8],
    pub types: &'a [u8],
    pub metadata: &'a [u8],
    pub null_bits: &'a [u8],
    pub optional_metadata: &'a [u8],
}

pub struct RowEvent<'a> {
    pub id: u64,
    pub flags: u16,
    pub extra: &'a [u8],
    pub columns: u64,
    pub before: Option<&'a [u8]>,
    pub after: Option<&'a [u8]>,
    pub rows: &'a [u8],
}

impl<'a> TableMap<'a> {
    /// None where the body ends too early.
    #[inline]
    pub fn read(mut body: &'a [u8], post_header: u8) -> Option<Self> {
        let body = &mut body;
        let id = table_id(body, post_header)?;
        let flags = u16::from_le_bytes(take(body)?);
        let database = counted_text(body)?;
        let [_] = take(body)?;
        let table = counted_text(body)?;
        let [_] = take(body)?;
        let count = length(body)?;
        let types = front(body, count)?;
        let metadata_length = length(body)?;
        Some(TableMap {
            id,
            flags,
            database,
            table,
            types,
            metadata: front(body, metadata_length)?,
            null_bits: front(body, count.div_ceil(8))?,
            optional_metadata: body,
        })
    }
}

impl<'a> RowEvent<'a> {
    /// None where the body ends before the rows.
    #[inline]
    pub fn read(
        mut body: &'a [u8],
        post_header: u8,
        has_before: bool,
        has_after: bool,
    ) -> Option<Self> {
        let body = &mut body;
        let id = table_id(body, post_header)?;
        let flags = u16::from_le_bytes(take(body)?);
        let extra = match post_header {
            WITH_EXTRA => {
                let count = u64::from(u16::from_le_bytes(take(body)?));
                front(body, count.saturating_sub(2))?
            }
            _ => &[],
        };
        let columns = length(body)?;
        let mut image = |is_there| match is_there {
            true => front(body, columns.div_ceil(8)).map(Some),
            false => Some(None),
        };
        Some(RowEvent {
            id,
            flags,
            extra,
            columns,
            before: image(has_before)?,
            after: image(has_after)?,
            rows: body,
        })
    }
}

/// A table map with its bytes owned.
struct KeptMap {
    id: u64,
    flags: u16,
    database: Box<[u8]>,
    table: Box<[u8]>,
    types: Box<[u8]>,
    metadata: Box<[u8]>,
    null_bits: Box<[u8]>,
    optional_metadata: Box<[u8]>,
}

impl KeptMap {
    fn of(map: &TableMap) -> Self {
        KeptMap {
            id: map.id,
            flags: map.flags,
            database: map.database.into(),
            table: map.table.into(),
            types: map.types.into(),
            metadata: map.metadata.into(),
            null_bits: map.null_bits.into(),
            optional_metadata: map.optional_metadata.into(),
        }
    }

    #[inline]
    fn is(&self, map: &TableMap) -> bool {
        self.flags == map.flags
            && *self.database == *map.database
            && *self.table == *map.table
            && *self.types == *map.types
            && *self.metadata == *map.metadata
            && *self.null_bits == *map.null_bits
            && *self.optional_metadata == *map.optional_metadata
    }
}

/// The newest map of each id, in rising order of the ids.
#[derive(Default)]
pub struct Maps {
    maps: Vec<KeptMap>,
}

impl Maps {
    /// A map that says the same as the one of its id isn't copied.
    #[inline]
    pub fn keep(&mut self, map: &TableMap) {
        match self.maps.binary_search_by_key(&map.id, |kept| kept.id) {
            Ok(at) if self.maps[at].is(map) => {}
            Ok(at) => self.maps[at] = KeptMap::of(map),
            Err(at) => self.maps.insert(at, KeptMap::of(map)),
        }
    }

    pub fn clear(&mut self) {
        self.maps.clear();
    }
}

#[inline]
fn table_id(body: &mut &[u8], post_header: u8) -> Option<u64> {
    if post_header == SHORT_ID {
        return Some(u32::from_le_bytes(take(body)?).into());
    }
    let bytes: [u8; 6] = take(body)?;
    let mut padded = [0; 8];
    padded[..6].copy_from_slice(&bytes);
    Some(u64::from_le_bytes(padded))
}

/// A length-encoded number.
#[inline]
fn length(body: &mut &[u8]) -> Option<u64> {
    let [first] = take(body)?;
    match first {
        0..=0xfa => Some(first.into()),
        0xfc => Some(u16::from_le_bytes(take(body)?).into()),
        0xfd => {
            let [low, middle, high] = take(body)?;
            Some(u32::from_le_bytes([low, middle, high, 0]).into())
        }
        0xfe => Some(u64::from_le_bytes(take(body)?)),
        _ => None,
    }
}

#[inline]
fn counted_text<'a>(body: &mut &'a [u8]) -> Option<&'a [u8]> {
    let [count] = take(body)?;
    front(body, count.into())
}

#[inline]
fn front<'a>(body: &mut &'a [u8], count: u64) -> Option<&'a [u8]> {
    let (bytes, rest) = body.split_at_checked(usize::try_from(count).ok()?)?;
    *body = rest;
    Some(bytes)
}

#[inline]
fn take<const COUNT: usize>(body: &mut &[u8]) -> Option<[u8; COUNT]> {
    let (bytes, rest) = body.split_first_chunk()?;
    *body = rest;
    Some(*bytes)
}
