//! The newest table map of each id, with what the rows of its table are written by.

use crate::line::{part, write_string};
use crate::rows::TableMap;
use crate::values::{Decimal, Decoder};

const UTF8MB4: u64 = 45;
/// The numbers of optional metadata's fields.
const SIGNEDNESS: u8 = 1;
const DEFAULT_CHARSET: u8 = 2;
const COLUMN_NAMES: u8 = 4;
const ENUM_MEMBERS: u8 = 6;
const SHORT: usize = 32;

/// A text that is appended as it is; one of at most 32 bytes by one copy of 32.
pub struct Piece {
    short: [u8; SHORT],
    length: usize,
}

impl Piece {
    /// None if it is longer.
    fn new(text: &[u8]) -> Option<Self> {
        let mut short = [0; SHORT];
        short.get_mut(..text.len())?.copy_from_slice(text);
        Some(Piece { short, length: text.len() })
    }

    #[inline(always)]
    pub fn write(&self, out: &mut [u8], at: usize) -> usize {
        *part(out, at) = self.short;
        at + self.length
    }
}

pub struct Column {
    /// A comma, the name in quotation marks, and a colon.
    pub key: Piece,
    pub decoder: Decoder,
}

pub struct Table {
    id: u64,
    body: Box<[u8]>,
    /// The member `table`, and the key of the member `rows`.
    pub members: Box<[u8]>,
    pub columns: Box<[Column]>,
}

#[derive(Default)]
pub struct Tables {
    tables: Vec<Table>,
}

impl Tables {
    /// None if a column isn't of the types that are known here. A map with the bytes of the one of its id isn't looked at again.
    #[inline]
    pub fn keep(&mut self, map: &TableMap, body: &[u8]) -> Option<()> {
        match self.tables.binary_search_by_key(&map.id, |table| table.id) {
            Ok(at) if *self.tables[at].body == *body => {}
            Ok(at) => self.tables[at] = Table::of(map, body)?,
            Err(at) => self.tables.insert(at, Table::of(map, body)?),
        }
        Some(())
    }

    #[inline]
    pub fn find(&self, id: u64) -> Option<&Table> {
        let at = self.tables.binary_search_by_key(&id, |table| table.id).ok()?;
        Some(&self.tables[at])
    }
}

impl Table {
    #[cold]
    fn of(map: &TableMap, body: &[u8]) -> Option<Self> {
        let name = [map.database, b".", map.table].concat();
        let members = [b",\"table\":".as_slice(), &string(&name), b",\"rows\":"].concat();
        Some(Table { id: map.id, body: body.into(), members: members.into(), columns: columns(map)? })
    }
}

fn string(text: &[u8]) -> Vec<u8> {
    let mut bytes = vec![0; 6 * text.len() + 16];
    let end = write_string(&mut bytes, 0, text);
    bytes.truncate(end);
    bytes
}

/// What the optional metadata states.
#[derive(Default)]
struct Facts<'a> {
    signedness: &'a [u8],
    names: Vec<&'a [u8]>,
    states: Vec<&'a [u8]>,
}

impl<'a> Facts<'a> {
    /// None if there are several ENUMs, or texts in another character set than UTF-8. All lengths are below 251.
    fn of(mut rest: &'a [u8]) -> Option<Self> {
        let mut facts = Facts::default();
        while let [kind, length, behind @ ..] = rest {
            let (content, behind) = behind.split_at_checked((*length).into())?;
            rest = behind;
            match *kind {
                SIGNEDNESS => facts.signedness = content,
                DEFAULT_CHARSET if content != [UTF8MB4 as u8] => return None,
                COLUMN_NAMES => facts.names = texts(content)?,
                ENUM_MEMBERS => {
                    facts.states = texts(content.get(1..)?)?;
                    (facts.states.len() == content[0].into()).then_some(())?;
                }
                _ => {}
            }
        }
        Some(facts)
    }
}

fn texts(mut rest: &[u8]) -> Option<Vec<&[u8]>> {
    let mut texts = Vec::new();
    while let [length, behind @ ..] = rest {
        let (text, behind) = behind.split_at_checked((*length).into())?;
        texts.push(text);
        rest = behind;
    }
    Some(texts)
}

fn columns(map: &TableMap) -> Option<Box<[Column]>> {
    let facts = Facts::of(map.optional_metadata)?;
    let mut metadata = map.metadata;
    let mut numeric = 0;
    let mut columns = Vec::new();
    for (index, number) in map.types.iter().enumerate() {
        let is_numeric = matches!(number, 1..=5 | 8 | 9 | 246);
        let is_unsigned = facts.signedness.get(numeric / 8).is_some_and(|bits| bits >> (7 - numeric % 8) & 1 == 1);
        numeric += usize::from(is_numeric);
        let numbered = format!("@{}", index + 1);
        let name = facts.names.get(index).copied().unwrap_or(numbered.as_bytes());
        let key = Piece::new(&[b",".as_slice(), &string(name), b":"].concat())?;
        let decoder = decoder(*number, &mut metadata, is_numeric && is_unsigned, &facts.states)?;
        columns.push(Column { key, decoder });
    }
    metadata.is_empty().then_some(columns.into())
}

fn decoder(number: u8, metadata: &mut &[u8], is_unsigned: bool, states: &[&[u8]]) -> Option<Decoder> {
    Some(match number {
        1 if !is_unsigned => Decoder::Tiny,
        3 if is_unsigned => Decoder::UnsignedLong,
        3 => Decoder::Long,
        8 if !is_unsigned => Decoder::LongLong,
        5 => take(metadata).filter(|size| *size == [8]).map(|_| Decoder::Double)?,
        15 => {
            let [most, 0] = take(metadata)? else { return None };
            Decoder::ShortText(most)
        }
        17 => take(metadata).filter(|digits| *digits == [0]).map(|_| Decoder::Timestamp2)?,
        18 => take(metadata).filter(|digits| *digits == [6]).map(|_| Decoder::DateTime2)?,
        245 => take(metadata).filter(|width| *width == [4]).map(|_| Decoder::Json)?,
        246 => {
            let [precision, scale] = take(metadata)?;
            Decoder::Decimal(Decimal::new(precision, scale)?)
        }
        252 => take(metadata).filter(|width| *width == [2]).map(|_| Decoder::Text)?,
        254 => take(metadata).filter(|real| *real == [247, 1]).and_then(|_| members(states)).map(Decoder::Enum)?,
        _ => return None,
    })
}

/// The values of an ENUM from 0 on, none if its members aren't known.
fn members(states: &[&[u8]]) -> Option<Box<[Piece]>> {
    if states.is_empty() {
        return Some(Box::default());
    }
    std::iter::once(&&b""[..]).chain(states).map(|text| Piece::new(&string(text))).collect()
}

fn take<const COUNT: usize>(bytes: &mut &[u8]) -> Option<[u8; COUNT]> {
    let (taken, rest) = bytes.split_first_chunk()?;
    *bytes = rest;
    Some(*taken)
}
