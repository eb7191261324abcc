//! Lines of MySQL binary logs: listings of events and of GTIDs, and lines of JSON; and the parts of the program `binlog`, which
//! prints them.
#![forbid(unsafe_code)]

#[allow(unused_variables)]
pub mod binlog_change_lines;
#[doc(hidden)]
pub mod binlog_cli;
pub mod binlog_commands;
#[doc(hidden)]
pub mod binlog_event_commands;
pub mod binlog_event_types;
pub mod binlog_filters;
#[doc(hidden)]
// The allocator, which some functions take of the machine alone, isn't passed here.
#[allow(unused_variables)]
#[doc(hidden)]
pub mod binlog_following;
pub mod binlog_gtid_listing;
#[doc(hidden)]
pub mod binlog_inputs;
// Of some functions a contract alone reads a parameter.
#[allow(unused_variables)]
#[doc(hidden)]
pub mod binlog_json_bodies;
#[allow(unused_variables)]
pub mod binlog_json_lines;
#[allow(unused_variables)]
#[doc(hidden)]
pub mod binlog_later_changes;
pub mod binlog_listing;
pub mod binlog_payload_filters;
pub mod binlog_payload_visits;
pub mod binlog_rotation;
#[allow(unused_variables)]
pub mod binlog_statistics;
#[doc(hidden)]
pub mod binlog_statistics_command;
#[doc(hidden)]
pub mod binlog_summaries;
#[doc(hidden)]
pub mod binlog_undo_command;
#[allow(unused_variables)]
pub mod binlog_undo_log;
pub mod binlog_visits;
/// Statistics of changes, from facts of events.
pub mod change_statistics;
#[doc(hidden)]
pub mod clap;
#[doc(hidden)]
pub mod host;
mod jiff;

pub use crate::binlog_commands::{GtidCollector, Largest, Stats, Tally};
pub use crate::binlog_filters::{
    Copier, Filter, Filtered, GtidSet, Pattern, Place, TableFilter, TablePattern,
    begins_transaction,
};
pub use crate::binlog_visits::{LineWriter, Visitor, visit, visit_counted, visit_verified, visit_verified_counted};
