//! Sums over rows.

use crate::columns::Column;
use crate::rows::RowEvent;
use crate::values;
use std::fmt;

/// Sums over the rows of a log and their values, modulo 2^64.
#[derive(Default)]
pub struct Sums {
    pub rows: u64,
    pub refused: u64,
    pub values: ValueSums,
}

#[derive(Clone, Copy, Default)]
pub struct ValueSums {
    pub nulls: u64,
    pub integers: u64,
    pub bytes: u64,
    pub decimals: u64,
    pub floats: u64,
    pub years: u64,
    pub seconds: u64,
    pub microseconds: u64,
}

impl fmt::Display for Sums {
    fn fmt(&self, f: &mut fmt::Formatter<'_>) -> fmt::Result {
        let values = &self.values;
        write!(
            f,
            "{} {} {} {} {} {} {} {} {} {}",
            self.rows,
            self.refused,
            values.nulls,
            values.integers,
            values.bytes,
            values.decimals,
            values.floats,
            values.years,
            values.seconds,
            values.microseconds
        )
    }
}

/// Which of the columns are in an image, by a bit for each, and how many they are.
struct Image<'a> {
    present: &'a [u8],
    count: usize,
}

impl<'a> Image<'a> {
    fn new(present: &'a [u8], columns: usize) -> Self {
        let count = (0..columns).filter(|index| is_set(present, *index)).count();
        Image { present, count }
    }
}

fn is_set(bits: &[u8], index: usize) -> bool {
    bits[index / 8] >> (index % 8) & 1 == 1
}

impl Sums {
    /// The rows up to the first that is refused.
    #[inline]
    pub fn count_rows(&mut self, event: &RowEvent, columns: &[Column]) {
        if event.columns != columns.len() as u64 {
            self.refused += 1;
            return;
        }
        let image = |present| Image::new(present, columns.len());
        let (before, after) = (event.before.map(image), event.after.map(image));
        let mut rest = event.rows;
        while !rest.is_empty() {
            let start = rest;
            let Some(sums) = self.values.with_row(columns, &before, &after, &mut rest) else {
                self.refused += 1;
                return;
            };
            // A row of no bytes.
            if rest.len() == start.len() {
                self.refused += 1;
                return;
            }
            self.values = sums;
            self.rows += 1;
        }
    }
}

impl ValueSums {
    /// The sums with a row more; None if it is refused.
    #[inline]
    fn with_row(
        self,
        columns: &[Column],
        before: &Option<Image>,
        after: &Option<Image>,
        rest: &mut &[u8],
    ) -> Option<Self> {
        let mut sums = self;
        for image in [before, after].into_iter().flatten() {
            sums.count_image(columns, image, rest)?;
        }
        Some(sums)
    }

    #[inline]
    fn count_image(&mut self, columns: &[Column], image: &Image, rest: &mut &[u8]) -> Option<()> {
        let (nulls, left) = rest.split_at_checked(image.count.div_ceil(8))?;
        *rest = left;
        if image.count == columns.len() {
            for (place, column) in columns.iter().enumerate() {
                if is_set(nulls, place) {
                    self.nulls += 1;
                } else {
                    values::count(self, *column, rest)?;
                }
            }
            return Some(());
        }
        let mut place = 0;
        for (index, column) in columns.iter().enumerate() {
            if !is_set(image.present, index) {
                continue;
            }
            if is_set(nulls, place) {
                self.nulls += 1;
            } else {
                values::count(self, *column, rest)?;
            }
            place += 1;
        }
        Some(())
    }
}
