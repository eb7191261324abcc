//! Dates of the Gregorian calendar.

/// A date.
#[derive(Clone, Copy)]
pub struct Date {
    pub year: i16,
    pub month: u8,
    pub day: u8,
}

/// The days from -10000-03-01 to -9999-01-01, the first date of the calendar.
const DAYS_BEFORE_FIRST: u32 = 306;

/// The days of 400 years, of 100 years of which the last isn't a leap year, and of four.
const DAYS_OF_400_YEARS: u32 = 146_097;
const DAYS_OF_FOUR_YEARS: u32 = 1_461;

impl Date {
    /// The date so many days after -9999-01-01.
    // Years begin in March here, so that a leap day is the last day of its year, and of its century.
    pub fn from_days_since_min(days: u32) -> Self {
        let quarters = 4 * (days + DAYS_BEFORE_FIRST) + 3;
        let century = quarters / DAYS_OF_400_YEARS;
        let quarters = quarters % DAYS_OF_400_YEARS | 3;
        let year = 100 * century + quarters / DAYS_OF_FOUR_YEARS;
        let day_of_year = quarters % DAYS_OF_FOUR_YEARS / 4;
        // Five months have 153 days, from March and from August on.
        let fifths = 5 * day_of_year + 2;
        let month = fifths / 153;
        let (month, january) = if month < 10 {
            (month + 3, 0)
        } else {
            (month - 9, 1)
        };
        match i16::try_from(i64::from(year + january) - 10_000) {
            Ok(year) => Date {
                year,
                month: month as u8,
                day: (fifths % 153 / 5) as u8 + 1,
            },
            Err(_) => panic!("{days} days after -9999-01-01"),
        }
    }
}

#[cfg(test)]
mod tests {
    use super::Date;

    #[test]
    fn epochs_are_dates() {
        for (days, expected) in [
            (0, (-9999, 1, 1)),
            (4_371_587, (1970, 1, 1)),
            (4_371_587 + 11_016, (2000, 2, 29)),
            (4_371_587 + 49_710, (2106, 2, 7)),
        ] {
            let date = Date::from_days_since_min(days);
            assert_eq!((date.year, date.month, date.day), expected);
        }
    }

    #[test]
    fn each_day_of_timestamps_is_a_date() {
        // The Julian day number of 1970-01-01.
        const FIRST: i32 = 2_440_588;
        for day in 0..=49_710 {
            let date = Date::from_days_since_min(4_371_587 + day);
            let expected = time::Date::from_julian_day(FIRST + day as i32).unwrap();
            assert_eq!(
                (i32::from(date.year), date.month, date.day),
                (expected.year(), u8::from(expected.month()), expected.day())
            );
        }
    }
}
