//! A reader or a writer of the standard library whose failures are counted.

use std::io;
use std::io::{ErrorKind, Read, Write};

use crate::binlog_ends::failed::{DeviceError, Failed};
use crate::binlog_ends::traits::{CountsFailures, ReadCounted, WriteCounted};

/// A reader or a writer, with the number of its failures and its last error.
///
/// A read or a write that is interrupted is tried again.
#[derive(Debug)]
pub struct Counted<T> {
    inner: T,
    failures: u64,
    last: Option<DeviceError>,
}

impl<T> Counted<T> {
    /// Wraps a reader or a writer, with no failures so far.
    pub fn new(inner: T) -> Self {
        Counted {
            inner,
            failures: 0,
            last: None,
        }
    }

    /// The wrapped reader or writer.
    pub fn get_ref(&self) -> &T {
        &self.inner
    }

    /// The wrapped reader or writer. The count is dropped.
    pub fn into_inner(self) -> T {
        self.inner
    }

    /// The kind of the last failure, or None if there was none.
    pub fn last_failure(&self) -> Option<ErrorKind> {
        self.last.as_ref().map(|error| error.kind())
    }

    /// The error of the last failure, or None if there was none.
    pub fn last_error(&self) -> Option<&DeviceError> {
        self.last.as_ref()
    }

    // Counts a failure.
    #[cold]
    fn fail(&mut self, error: io::Error) -> Failed {
        let error = DeviceError::from(error);
        self.failures = self.failures.saturating_add(1);
        self.last = Some(error.clone());
        error.into()
    }
}

impl<T> CountsFailures for Counted<T> {
    #[inline]
    fn failures(&self) -> u64 {
        self.failures
    }
}

impl<R: Read> ReadCounted for Counted<R> {
    /// Reads by `Read::read`, with all of `buf`; if that returns 0, the input is at its end.
    fn read_some(&mut self, buf: &mut [u8]) -> Result<usize, Failed> {
        read_once(&mut self.inner, buf).map_err(|error| self.fail(error))
    }
}

impl<W: Write> WriteCounted for Counted<W> {
    /// Writes by `Write::write_all`. A write of 0 bytes is a failure.
    #[inline]
    fn write_whole(&mut self, bytes: &[u8]) -> Result<(), Failed> {
        self.inner
            .write_all(bytes)
            .map_err(|error| self.fail(error))
    }

    #[inline]
    fn flush_counted(&mut self) -> Result<(), Failed> {
        self.inner.flush().map_err(|error| self.fail(error))
    }
}

/// Reads once, and again while the read is interrupted. If `buf` is empty, the reader isn't called.
pub(crate) fn read_once<R: Read>(input: &mut R, buf: &mut [u8]) -> io::Result<usize> {
    if buf.is_empty() {
        return Ok(0);
    }
    loop {
        match input.read(buf) {
            Err(error) if error.kind() == ErrorKind::Interrupted => {}
            answer => return answer,
        }
    }
}
