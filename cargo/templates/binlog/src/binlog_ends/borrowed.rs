//! A borrowed reader or writer of the standard library whose failures are counted.

use std::io;
use std::io::{Read, Write};

use crate::binlog_ends::counted::read_once;
use crate::binlog_ends::failed::Failed;
use crate::binlog_ends::traits::{CountsFailures, ReadCounted, WriteCounted};

/// A borrowed reader or writer, with the number of its failures since it was borrowed.
///
/// It is how the calls over a `BufRead` or a `Write` go through the counted ones. A read or a write that is interrupted
/// is tried again.
#[derive(Debug)]
pub struct CountedRef<'a, T> {
    inner: &'a mut T,
    failures: u64,
}

impl<'a, T> CountedRef<'a, T> {
    /// Borrows a reader or a writer, with no failures so far.
    pub fn new(inner: &'a mut T) -> Self {
        CountedRef { inner, failures: 0 }
    }

    // Counts a failure.
    #[cold]
    fn fail(&mut self, error: io::Error) -> Failed {
        self.failures = self.failures.saturating_add(1);
        error.into()
    }
}

impl<T> CountsFailures for CountedRef<'_, T> {
    #[inline]
    fn failures(&self) -> u64 {
        self.failures
    }
}

impl<R: Read> ReadCounted for CountedRef<'_, R> {
    fn read_some(&mut self, buf: &mut [u8]) -> Result<usize, Failed> {
        read_once(self.inner, buf).map_err(|error| self.fail(error))
    }
}

impl<W: Write> WriteCounted for CountedRef<'_, W> {
    #[inline]
    fn write_whole(&mut self, bytes: &[u8]) -> Result<(), Failed> {
        self.inner
            .write_all(bytes)
            .map_err(|error| self.fail(error))
    }

    #[inline]
    fn flush_counted(&mut self) -> Result<(), Failed> {
        self.inner.flush().map_err(|error| self.fail(error))
    }
}
