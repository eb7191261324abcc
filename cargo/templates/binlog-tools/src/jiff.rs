//! Times by the crate `time`, with the names and the forms of the crate `jiff`.
use ::time::OffsetDateTime;
use std::str::FromStr;

/// A second of the time in UTC.
#[derive(Clone, Copy, Debug)]
pub struct Timestamp(OffsetDateTime);

/// A text is no time, or a time is out of range.
#[derive(Clone, Copy, Debug)]
pub enum Error {
    /// The text has no time of day, or no offset.
    Missing(()),
    /// Anything else is wrong.
    Invalid,
}

/// The first and the last second of a time, since 1970 began: at any offset it is of a year from -9999 to 9999.
const FIRST: i64 = -377_705_023_201;
const LAST: i64 = 253_402_207_200;

/// The greatest offset in seconds.
const GREATEST_OFFSET: i64 = 93_599;

impl Timestamp {
    /// The time so many seconds after 1970 began.
    pub fn from_second(second: i64) -> Result<Self, Error> {
        if !(FIRST..=LAST).contains(&second) {
            return Err(Error::Invalid);
        }
        OffsetDateTime::from_unix_timestamp(second).map(Timestamp).map_err(|_| Error::Invalid)
    }

    /// The seconds since 1970 began.
    pub fn as_second(self) -> i64 {
        self.0.unix_timestamp()
    }
}

/// A date and a time of day, as of [`civil::DateTime`], and behind it the offset from UTC.
impl FromStr for Timestamp {
    type Err = Error;

    fn from_str(text: &str) -> Result<Self, Error> {
        let (_, time) = text.split_once(['T', 't', ' ']).ok_or(Error::Missing(()))?;
        let place = time.find(['Z', 'z', '+', '-']).ok_or(Error::Missing(()))?;
        let (local, offset) = text.split_at(text.len() - time.len() + place);
        let local: civil::DateTime = local.parse()?;
        let offset = seconds_of_offset(offset).ok_or(Error::Invalid)?;
        Timestamp::from_second(local.0.assume_utc().unix_timestamp() - offset)
    }
}

/// The seconds of an offset: `Z`, or behind a sign an hour, perhaps a minute, and perhaps a second, whose fraction is rounded.
fn seconds_of_offset(text: &str) -> Option<i64> {
    let (sign, parts) = match text.split_at_checked(1)? {
        ("Z" | "z", "") => return Some(0),
        ("+", parts) => (1, parts),
        ("-", parts) => (-1, parts),
        _ => return None,
    };
    let ([hour, minute, second], fraction) = civil::clock(parts)?;
    let [hours, minutes, seconds] = [hour, minute, second].map(i64::from);
    let rounding = i64::from(fraction.starts_with(['5', '6', '7', '8', '9']));
    let offset = 3_600 * hours + 60 * minutes + seconds + rounding;
    (minutes < 60 && seconds < 60 && offset <= GREATEST_OFFSET).then_some(sign * offset)
}

/// Dates and times of day.
pub mod civil {
    use super::Error;
    use ::time::{Date, Month, PrimitiveDateTime, Time};
    use std::fmt;
    use std::str::FromStr;

    /// A date and a time of day.
    #[derive(Clone, Copy, Debug)]
    pub struct DateTime(pub(super) PrimitiveDateTime);

    /// As `2026-11-26T12:00:00`.
    impl fmt::Display for DateTime {
        fn fmt(&self, f: &mut fmt::Formatter<'_>) -> fmt::Result {
            let (date, time) = (self.0.date(), self.0.time());
            let (year, month, day) = (date.year(), u8::from(date.month()), date.day());
            let (hour, minute, second) = time.as_hms();
            write!(f, "{year:04}-{month:02}-{day:02}T{hour:02}:{minute:02}:{second:02}")
        }
    }

    /// A date, or a date and a time behind a `T` or a space; with dashes and colons, or without. A fraction of a second is
    /// read over. An offset or a zone is refused, and not read over as by `jiff`: the program reads no such text so.
    impl FromStr for DateTime {
        type Err = Error;

        fn from_str(text: &str) -> Result<Self, Error> {
            let (date_text, time_text) = match text.split_once(['T', 't', ' ']) {
                Some((date, time)) => (date, Some(time)),
                None => (text, None),
            };
            let time = time_text.map_or(Some(Time::MIDNIGHT), time);
            date(date_text).zip(time).map(|(date, time)| DateTime(PrimitiveDateTime::new(date, time))).ok_or(Error::Invalid)
        }
    }

    fn date(text: &str) -> Option<Date> {
        let (year, rest) = year(text)?;
        let parts = parts(rest.strip_prefix('-').unwrap_or(rest), '-', rest.starts_with('-'))?;
        let [month, day] = parts[..] else {
            return None;
        };
        Date::from_calendar_date(year, Month::try_from(month).ok()?, day).ok()
    }

    /// A year of four digits, or of six behind a sign, and the text behind it.
    fn year(text: &str) -> Option<(i32, &str)> {
        let len = if text.starts_with(['+', '-']) { 7 } else { 4 };
        let (year, rest) = text.split_at_checked(len)?;
        let digits = year.strip_prefix(['+', '-']).unwrap_or(year);
        if !digits.bytes().all(|byte| byte.is_ascii_digit()) || year == "-000000" {
            return None;
        }
        Some((year.parse().ok()?, rest))
    }

    /// A time of day. A leap second is the second before.
    fn time(text: &str) -> Option<Time> {
        let ([hour, minute, second], _) = clock(text)?;
        Time::from_hms(hour, minute, if second == 60 { 59 } else { second }).ok()
    }

    /// An hour, perhaps a minute, and perhaps a second, 0 where there is none; and the digits of the fraction that a second may
    /// have.
    pub(super) fn clock(text: &str) -> Option<([u8; 3], &str)> {
        let (whole, fraction) = match text.split_once(['.', ',']) {
            Some((whole, fraction)) => (whole, Some(fraction)),
            None => (text, None),
        };
        let parts = parts(whole, ':', whole.contains(':'))?;
        let is_fraction = |text: &str| matches!(text.len(), 1..=9) && text.bytes().all(|byte| byte.is_ascii_digit());
        if fraction.is_some_and(|fraction| parts.len() != 3 || !is_fraction(fraction)) {
            return None;
        }
        let part = |place| parts.get(place).copied().unwrap_or(0);
        (1..=3).contains(&parts.len()).then(|| ([part(0), part(1), part(2)], fraction.unwrap_or("")))
    }

    /// Numbers of two digits each, with this separator between them or none.
    fn parts(text: &str, separator: char, is_separated: bool) -> Option<Vec<u8>> {
        let number = |digits: &str| {
            let is_number = digits.len() == 2 && digits.bytes().all(|byte| byte.is_ascii_digit());
            is_number.then(|| digits.parse().ok())?
        };
        if is_separated {
            return text.split(separator).map(number).collect();
        }
        let pairs = text.as_bytes().chunks(2).map(|pair| std::str::from_utf8(pair).ok());
        pairs.map(|pair| number(pair?)).collect()
    }
}

/// Offsets from UTC.
pub mod tz {
    use super::civil::DateTime;
    use super::{Error, Timestamp};
    use ::time::PrimitiveDateTime;

    /// An offset from UTC: there is none but 0.
    #[derive(Clone, Copy, Debug)]
    pub struct Offset;

    impl Offset {
        /// UTC.
        pub const UTC: Offset = Offset;

        /// The time that a date and a time of day are.
        pub fn to_timestamp(self, time: DateTime) -> Result<Timestamp, Error> {
            Timestamp::from_second(time.0.assume_utc().unix_timestamp())
        }

        /// The date and the time of day of a time.
        pub fn to_datetime(self, time: Timestamp) -> DateTime {
            DateTime(PrimitiveDateTime::new(time.0.date(), time.0.time()))
        }
    }
}

#[cfg(test)]
mod tests {
    use super::civil::DateTime;
    use super::{Error, Timestamp};

    const NOON: i64 = 1_795_694_400;

    fn seconds(text: &str) -> Option<i64> {
        text.parse().ok().map(Timestamp::as_second)
    }

    #[test]
    fn offsets_count() {
        for (text, expected) in [
            ("2026-11-26T12:00:00Z", NOON),
            ("20261126t120000z", NOON),
            ("2026-11-26 12Z", NOON),
            ("2026-11-26T14:00:00+02", NOON),
            ("2026-11-26T14:00:00+0200", NOON),
            ("2026-11-26T14:00:00.999+02:00", NOON),
            ("2026-11-26T14:00+02:00:00", NOON),
            ("20261126T140000+020000", NOON),
            ("2026-11-26T06:29:30-05:30:30", NOON),
            ("2026-11-26T12:00:01+00:00:00.5", NOON),
            ("2026-11-26T12:00:00-00:00:00,499999999", NOON),
            ("2026-11-27T13:59:59+25:59:59", NOON),
            ("+002026-11-26T12:00:60Z", NOON + 59),
            ("-000001-01-01T00:00:00Z", -62_198_755_200),
            ("9999-12-30T22:00:00Z", 253_402_207_200),
        ] {
            assert_eq!(seconds(text), Some(expected), "{text}");
        }
    }

    #[test]
    fn other_offsets_are_refused() {
        for offset in [
            "+", "-", "+2", "+02:", "+02:0", "+02:000", "+02:0000", "+0200:00", "+02:00:0", "+02:60", "+02:00:60", "+26",
            "+25:59:59.5", "+02.5", "+02:00.5", "+02:00:00.", "+02:00:00.1234567890", "Z0", "ZZ", "+02Z", "+02+02", "+\u{e9}", " +02",
        ] {
            let found = format!("2026-11-26T12:00:00{offset}").parse::<Timestamp>();
            assert!(matches!(found, Err(Error::Invalid)), "{offset}: {found:?}");
        }
    }

    #[test]
    fn a_time_without_an_offset_lacks_one() {
        for text in ["2026-11-26", "2026-11-26T12:00:00", "20261126 12"] {
            assert!(matches!(text.parse::<Timestamp>(), Err(Error::Missing(_))), "{text}");
            assert!(text.parse::<DateTime>().is_ok(), "{text}");
        }
        for text in ["2026-11-26T12:00:00Z", "2026-11-26T12:00:00+02", "2026-11-26Z", "2026-11-26T", "today"] {
            assert!(text.parse::<DateTime>().is_err(), "{text}");
        }
    }

    #[test]
    fn times_are_in_range_at_any_offset() {
        for text in ["9999-12-30T22:00:01Z", "9999-12-31T23:59:59-01", "-009999-01-02T01:59:58Z", "-009999-01-01T00:00:00+01"] {
            assert_eq!(seconds(text), None, "{text}");
        }
        assert_eq!(seconds("-009999-01-02T01:59:59Z"), Some(-377_705_023_201));
    }
}
