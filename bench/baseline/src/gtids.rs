//! GTID events, without a tag and with one.

const CLOCK_CODE: u8 = 2;
const SERIALIZATION_VERSION: u8 = 2;
const UNKNOWN_VERSION: u32 = 999_999;
const TIME_FOLLOWS: u64 = 1 << 55;
const VERSION_FOLLOWS: u32 = 1 << 31;
const LAST_KNOWN_FIELD: u64 = 11;
const MAX_TAG_LENGTH: usize = 32;

#[derive(Default)]
pub struct Gtid<'a> {
    pub flags: u8,
    pub sid: [u8; 16],
    pub gno: u64,
    pub tag: &'a [u8],
    pub last_committed: u64,
    pub sequence_number: u64,
    pub immediate_time: u64,
    pub original_time: u64,
    pub length: u64,
    pub immediate_version: u32,
    pub original_version: u32,
    pub ticket: u64,
}

impl<'a> Gtid<'a> {
    /// None where the body isn't a GTID without a tag.
    #[inline]
    pub fn untagged(mut body: &'a [u8]) -> Option<Self> {
        let [flags] = take(&mut body)?;
        let mut gtid = Gtid {
            flags,
            sid: take(&mut body)?,
            gno: u64::from_le_bytes(take(&mut body)?),
            immediate_version: UNKNOWN_VERSION,
            original_version: UNKNOWN_VERSION,
            ..Gtid::default()
        };
        if let Some((&CLOCK_CODE, clock)) = body.split_first() {
            body = clock;
            gtid.read_clock(&mut body)?;
        }
        body.is_empty().then_some(gtid)
    }

    #[inline]
    fn read_clock(&mut self, body: &mut &'a [u8]) -> Option<()> {
        self.last_committed = u64::from_le_bytes(take(body)?);
        self.sequence_number = u64::from_le_bytes(take(body)?);
        if body.len() >= 7 {
            let time = time(body)?;
            self.immediate_time = time & !TIME_FOLLOWS;
            self.original_time = match time & TIME_FOLLOWS {
                0 => time,
                _ => self::time(body)?,
            };
        }
        if !body.is_empty() {
            self.length = length(body)?;
        }
        if body.len() >= 4 {
            let version = u32::from_le_bytes(take(body)?);
            self.immediate_version = version & !VERSION_FOLLOWS;
            self.original_version = match version & VERSION_FOLLOWS {
                0 => version,
                _ => u32::from_le_bytes(take(body)?),
            };
        }
        Some(())
    }

    /// None where the body isn't a GTID with a tag.
    #[inline]
    pub fn tagged(mut body: &'a [u8]) -> Option<Self> {
        let whole = body.len() as u64;
        let [SERIALIZATION_VERSION] = take(&mut body)? else {
            return None;
        };
        if variable(&mut body)? != whole {
            return None;
        }
        let last_id = variable(&mut body)?;
        let mut gtid = Gtid::default();
        let (mut original_time, mut immediate_version, mut original_version) = (None, None, None);
        while !body.is_empty() {
            match variable(&mut body)? {
                0 => gtid.flags = byte(&mut body)?,
                1 => {
                    for place in &mut gtid.sid {
                        *place = byte(&mut body)?;
                    }
                }
                2 => gtid.gno = not_negative(&mut body)?,
                3 => gtid.tag = tag(&mut body)?,
                4 => gtid.last_committed = not_negative(&mut body)?,
                5 => gtid.sequence_number = not_negative(&mut body)?,
                6 => gtid.immediate_time = variable(&mut body)?,
                7 => original_time = Some(variable(&mut body)?),
                8 => gtid.length = variable(&mut body)?,
                9 => immediate_version = Some(version(&mut body)?),
                10 => original_version = Some(version(&mut body)?),
                LAST_KNOWN_FIELD => gtid.ticket = variable(&mut body)?,
                unknown if unknown > last_id => break,
                _ => return None,
            }
        }
        gtid.original_time = original_time.unwrap_or(gtid.immediate_time);
        gtid.immediate_version = immediate_version.unwrap_or(UNKNOWN_VERSION);
        gtid.original_version = original_version.unwrap_or(gtid.immediate_version);
        (!gtid.tag.is_empty()).then_some(gtid)
    }
}

#[inline]
fn take<const COUNT: usize>(text: &mut &[u8]) -> Option<[u8; COUNT]> {
    let (bytes, rest) = text.split_first_chunk()?;
    *text = rest;
    Some(*bytes)
}

/// A number in its low bytes.
#[inline]
fn low<const COUNT: usize>(text: &mut &[u8]) -> Option<u64> {
    let mut padded = [0; 8];
    padded[..COUNT].copy_from_slice(&take::<COUNT>(text)?);
    Some(u64::from_le_bytes(padded))
}

#[inline]
fn time(text: &mut &[u8]) -> Option<u64> {
    low::<7>(text)
}

/// A length-encoded number.
#[inline]
fn length(text: &mut &[u8]) -> Option<u64> {
    match take(text)? {
        [0xfb | 0xff] => None,
        [0xfc] => low::<2>(text),
        [0xfd] => low::<3>(text),
        [0xfe] => low::<8>(text),
        [small] => Some(small.into()),
    }
}

/// A variable-length number, in any of its spellings.
#[inline]
fn variable(text: &mut &[u8]) -> Option<u64> {
    let first = *text.first()?;
    let ones = first.trailing_ones() as usize;
    if ones == 0 {
        *text = &text[1..];
        return Some((first >> 1).into());
    }
    let (bytes, rest) = text.split_at_checked(ones + 1)?;
    let number = match text.first_chunk::<8>() {
        Some(word) if ones < 8 => {
            let above = 64 - 8 * (ones + 1);
            u64::from_le_bytes(*word) << above >> above >> (ones + 1)
        }
        _ => long_variable(bytes),
    };
    *text = rest;
    Some(number)
}

/// One in nine bytes, or near the end of the body.
#[inline(never)]
fn long_variable(bytes: &[u8]) -> u64 {
    if let [0xff, bytes @ ..] = bytes {
        return bytes.iter().rfold(0, |number, byte| number << 8 | u64::from(*byte));
    }
    let number = bytes.iter().rfold(0, |number, byte| number << 8 | u64::from(*byte));
    number >> bytes.len()
}

#[inline]
fn byte(text: &mut &[u8]) -> Option<u8> {
    variable(text)?.try_into().ok()
}

#[inline]
fn version(text: &mut &[u8]) -> Option<u32> {
    variable(text)?.try_into().ok()
}

#[inline]
fn not_negative(text: &mut &[u8]) -> Option<u64> {
    let number = variable(text)?;
    (number % 2 == 0).then_some(number / 2)
}

#[inline]
fn tag<'a>(text: &mut &'a [u8]) -> Option<&'a [u8]> {
    let length = variable(text)?.try_into().ok()?;
    let (tag, rest) = text.split_at_checked(length)?;
    *text = rest;
    let is_word = |byte: &u8| byte.is_ascii_alphanumeric() || *byte == b'_';
    let is_tag = tag.len() <= MAX_TAG_LENGTH
        && !tag.first()?.is_ascii_digit()
        && tag.iter().all(is_word);
    is_tag.then_some(tag)
}
