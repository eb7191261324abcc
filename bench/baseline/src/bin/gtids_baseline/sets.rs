//! Sets of transaction numbers, by source and tag.

use crate::gtids::Gtid;
use std::collections::BTreeMap;
use std::io::{self, Write};

/// The number behind the greatest that a GTID can have.
const END: u64 = 1 << 63;

/// The intervals of each source and tag, ascending and apart, each with the number behind its last one.
#[derive(Default)]
pub struct Sets {
    groups: BTreeMap<([u8; 16], Vec<u8>), Vec<(u64, u64)>>,
}

impl Sets {
    /// False where the number is none that a GTID can have.
    #[inline]
    pub fn add_gtid(&mut self, gtid: &Gtid) -> bool {
        if gtid.gno == 0 || gtid.gno >= END {
            return false;
        }
        let key = (gtid.sid, gtid.tag.to_vec());
        insert(self.groups.entry(key).or_default(), gtid.gno, gtid.gno + 1);
        true
    }

    /// Adds a set without tags; None where it isn't one.
    pub fn add_previous(&mut self, mut data: &[u8]) -> Option<()> {
        for _ in 0..number(&mut data)? {
            let (sid, rest) = data.split_first_chunk()?;
            data = rest;
            for _ in 0..number(&mut data)? {
                let (start, end) = (number(&mut data)?, number(&mut data)?);
                if start < end {
                    (start > 0 && end <= END).then_some(())?;
                    insert(self.groups.entry((*sid, Vec::new())).or_default(), start, end);
                }
            }
        }
        data.is_empty().then_some(())
    }

    /// A line for each group.
    pub fn write(&self, output: &mut impl Write) -> io::Result<()> {
        for ((sid, tag), intervals) in &self.groups {
            for byte in sid {
                write!(output, "{byte:02x}")?;
            }
            if !tag.is_empty() {
                output.write_all(b":")?;
                output.write_all(tag)?;
            }
            output.write_all(b" ")?;
            write_intervals(intervals.iter().copied(), output)?;
            output.write_all(b" gaps ")?;
            let ends = std::iter::once(1).chain(intervals.iter().map(|(_, end)| *end));
            let gaps = ends.zip(intervals).map(|(end, (start, _))| (end, *start));
            write_intervals(gaps.filter(|(end, start)| end < start), output)?;
            output.write_all(b"\n")?;
        }
        Ok(())
    }
}

fn number(data: &mut &[u8]) -> Option<u64> {
    let (bytes, rest) = data.split_first_chunk()?;
    *data = rest;
    Some(u64::from_le_bytes(*bytes))
}

/// Adds an interval, and merges those that it touches.
#[inline]
fn insert(intervals: &mut Vec<(u64, u64)>, start: u64, end: u64) {
    if let Some(last) = intervals.last_mut() {
        if last.1 == start {
            last.1 = end;
            return;
        }
    }
    let from = intervals.partition_point(|interval| interval.1 < start);
    let to = intervals.partition_point(|interval| interval.0 <= end);
    if from == to {
        intervals.insert(from, (start, end));
    } else {
        let merged = (start.min(intervals[from].0), end.max(intervals[to - 1].1));
        intervals.splice(from..to, [merged]);
    }
}

fn write_intervals(
    intervals: impl Iterator<Item = (u64, u64)>,
    output: &mut impl Write,
) -> io::Result<()> {
    let mut is_first = true;
    for (start, end) in intervals {
        if !is_first {
            output.write_all(b",")?;
        }
        is_first = false;
        match end - start {
            1 => write!(output, "{start}")?,
            _ => write!(output, "{start}-{}", end - 1)?,
        }
    }
    if is_first {
        output.write_all(b"-")?;
    }
    Ok(())
}
