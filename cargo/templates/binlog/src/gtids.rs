//! What users of Rust expect of GTIDs: texts and equality. By hand, since the proved sources have no `Display` of what takes
//! memory, and compare no sets.
use crate::binlog_gtid_sets::GtidTracker;
use crate::binlog_gtid_text::{GtidTextError, parse, to_text};
use crate::binlog_maria_gtids::{MariaGtidSet, MariaGtidTextError, parse_set};
use crate::binlog_mariadb::MariaGtid;
use crate::binlog_variable_fields::{GnoInterval, Tag};
use std::fmt;
use std::str::FromStr;

/// As [`to_text`](crate::gtid_text::to_text) writes it. The formatting fails if memory runs out.
impl fmt::Display for GtidTracker {
    fn fmt(&self, f: &mut fmt::Formatter<'_>) -> fmt::Result {
        f.pad(&to_text(self).map_err(|_| fmt::Error)?)
    }
}

/// As [`parse`](crate::gtid_text::parse) reads it.
///
/// # Example
///
/// ```
/// use binlog::GtidTracker;
///
/// let gtids: GtidTracker = "3E11FA47-71CA-11E1-9E33-C80AA9429562: 7, 3e11fa47-71ca-11e1-9e33-c80aa9429562:1-3:4-5".parse()?;
/// assert_eq!(gtids.to_string(), "3e11fa47-71ca-11e1-9e33-c80aa9429562:1-5:7");
/// assert_eq!(gtids, gtids.to_string().parse()?);
/// assert!("3e11fa47:1-5".parse::<GtidTracker>().is_err());
/// # Ok::<(), binlog::gtid_text::GtidTextError>(())
/// ```
impl FromStr for GtidTracker {
    type Err = GtidTextError;

    fn from_str(text: &str) -> Result<Self, GtidTextError> {
        parse(text)
    }
}

/// Two sets are equal if they have the same GTIDs.
impl PartialEq for GtidTracker {
    fn eq(&self, other: &Self) -> bool {
        groups(self).eq(groups(other))
    }
}

impl Eq for GtidTracker {}

/// The sources and tags of a set with their numbers, in their order. Each has a number, and its intervals don't touch: a set has
/// one such list.
fn groups(
    set: &GtidTracker,
) -> impl Iterator<Item = ([u8; 16], Option<&Tag<'static>>, &[GnoInterval])> {
    let pairs = (0..set.len()).filter_map(|place| set.group(place));
    pairs.map(|(sid, tag)| (sid, tag, set.intervals(sid, tag)))
}

/// As servers write it: `0-1-100`.
///
/// # Example
///
/// ```
/// use binlog::mariadb::MariaGtid;
///
/// assert_eq!(MariaGtid::new(0, 1, 100).to_string(), "0-1-100");
/// ```
impl fmt::Display for MariaGtid {
    fn fmt(&self, f: &mut fmt::Formatter<'_>) -> fmt::Result {
        let text = format!("{}-{}-{}", self.domain(), self.server_id(), self.sequence());
        f.pad(&text)
    }
}

/// As [`parse_set`](crate::mariadb::parse_set) reads it.
///
/// # Example
///
/// ```
/// use binlog::mariadb::{MariaGtid, MariaGtidSet};
///
/// let gtids: MariaGtidSet = "0-1-100,1-2-7".parse()?;
/// assert!(gtids.contains(MariaGtid::new(1, 2, 7)));
/// assert!(!gtids.contains(MariaGtid::new(0, 2, 7)));
/// assert!("0-1".parse::<MariaGtidSet>().is_err());
/// # Ok::<(), binlog::mariadb::MariaGtidTextError>(())
/// ```
impl FromStr for MariaGtidSet {
    type Err = MariaGtidTextError;

    fn from_str(text: &str) -> Result<Self, MariaGtidTextError> {
        parse_set(text)
    }
}
