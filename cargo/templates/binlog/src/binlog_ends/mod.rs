//! Readers and writers that count their failures.
//!
//! Each of them counts its failures, and the count never falls ([`CountsFailures`]). So a caller can determine whether
//! a device failed: if the count is unchanged after a call, and isn't `u64::MAX`, nothing failed in that call.
//!
//! - [`ReadCounted`] reads, and [`WriteCounted`] writes. [`Failed`] is returned exactly if a failure was counted.
//! - [`Counted`] wraps any `Read` or `Write`, and keeps its last error. [`CountedRef`] borrows one. Both try an
//!   interrupted read or write again, as the standard library does.
//! - [`SliceReader`] reads bytes in memory, and never fails.
//! - [`Retrying`] tries an interrupted call again, a flush too, up to a number of attempts.

mod borrowed;
mod counted;
mod failed;
mod references;
mod retrying;
mod slice_reader;
mod traits;

pub use borrowed::CountedRef;
pub use counted::Counted;
pub use failed::{DeviceError, Failed};
pub use retrying::{ATTEMPTS, Retrying};
pub use slice_reader::SliceReader;
pub use traits::{CountsFailures, ReadCounted, WriteCounted};
