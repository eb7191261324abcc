//! How the values of a table's columns are encoded.

/// How the values of a column are encoded.
#[derive(Clone, Copy, PartialEq, Eq)]
pub enum Column {
    Nothing,
    /// A little-endian number of so many bytes.
    Integer(u8),
    Float,
    Double,
    Date,
    Year,
    Timestamp,
    Time,
    DateTime,
    /// So many bits.
    Bits(u8),
    /// With so many decimal digits of a fraction.
    Timestamp2(u8),
    DateTime2(u8),
    Time2(u8),
    Decimal(Decimal),
    /// Bytes behind their length of so many bytes, and how many there are at most.
    Counted(u8, u32),
    Vector(u8),
}

/// The groups of digits of a decimal number.
#[derive(Clone, Copy, PartialEq, Eq)]
pub struct Decimal {
    /// How many digits there are before the first group of nine, how many groups are before the point and behind it, and
    /// how many digits are left.
    pub lead: u8,
    pub whole: u8,
    pub part: u8,
    pub tail: u8,
}

/// None where a type is unknown, or the metadata isn't allowed or doesn't end with the last column.
pub fn columns(types: &[u8], mut metadata: &[u8]) -> Option<Box<[Column]>> {
    let columns = types.iter().map(|number| column(*number, &mut metadata));
    let columns = columns.collect::<Option<Box<[Column]>>>()?;
    metadata.is_empty().then_some(columns)
}

fn column(number: u8, metadata: &mut &[u8]) -> Option<Column> {
    let column = match number {
        1 => Column::Integer(1),
        2 => Column::Integer(2),
        9 => Column::Integer(3),
        3 => Column::Integer(4),
        8 => Column::Integer(8),
        4 => take::<1>(metadata).filter(|size| size[0] == 4).map(|_| Column::Float)?,
        5 => take::<1>(metadata).filter(|size| size[0] == 8).map(|_| Column::Double)?,
        6 => Column::Nothing,
        7 => Column::Timestamp,
        10 | 14 => Column::Date,
        11 => Column::Time,
        12 => Column::DateTime,
        13 => Column::Year,
        15 | 253 | 141 => {
            let most = u16::from_le_bytes(take(metadata)?);
            string(most.into())
        }
        16 => {
            let [over, bytes] = take(metadata)?;
            let bits = 8 * u32::from(bytes) + u32::from(over);
            (over <= 7 && (1..=64).contains(&bits)).then_some(Column::Bits(bits as u8))?
        }
        17 => Column::Timestamp2(digits(metadata)?),
        18 => Column::DateTime2(digits(metadata)?),
        19 => Column::Time2(digits(metadata)?),
        246 => {
            let [precision, scale] = take(metadata)?;
            let is_allowed = (1..=65).contains(&precision) && scale <= precision.min(38);
            is_allowed.then(|| Column::Decimal(Decimal::new(precision, scale)))?
        }
        247 | 248 | 254 => real(number, take(metadata)?)?,
        242 => Column::Vector(width(metadata)?),
        140 | 245 | 249..=252 | 255 => {
            let width = width(metadata)?;
            Column::Counted(width, u32::MAX >> (32 - 8 * u32::from(width)))
        }
        _ => return None,
    };
    Some(column)
}

/// A STRING, an ENUM or a SET.
fn real(number: u8, [low, high]: [u8; 2]) -> Option<Column> {
    let above = u16::from(3 - low / 16 % 4);
    let real = u16::from(low) + 16 * above;
    let size = u16::from(high) + 256 * above;
    match real {
        254 if number == 254 => Some(string(size.into())),
        247 if (1..=2).contains(&size) => Some(Column::Integer(size as u8)),
        248 if (1..=8).contains(&size) => Some(Column::Integer(size as u8)),
        _ => None,
    }
}

fn string(most: u32) -> Column {
    Column::Counted(if most <= 255 { 1 } else { 2 }, most)
}

fn digits(metadata: &mut &[u8]) -> Option<u8> {
    take::<1>(metadata).map(|[digits]| digits).filter(|digits| *digits <= 6)
}

fn width(metadata: &mut &[u8]) -> Option<u8> {
    take::<1>(metadata).map(|[width]| width).filter(|width| (1..=4).contains(width))
}

impl Decimal {
    fn new(precision: u8, scale: u8) -> Self {
        let digits = precision - scale;
        Decimal {
            lead: digits % 9,
            whole: digits / 9,
            part: scale / 9,
            tail: scale % 9,
        }
    }
}

fn take<const COUNT: usize>(bytes: &mut &[u8]) -> Option<[u8; COUNT]> {
    let (taken, rest) = bytes.split_first_chunk()?;
    *bytes = rest;
    Some(*taken)
}
