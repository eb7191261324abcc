//! The failure of a reader or a writer.

use std::fmt;
use std::io;
use std::io::ErrorKind;
use std::ops::Deref;
use std::sync::Arc;

use thiserror::Error;

/// The error of a reader or a writer: an [`io::Error`], shared by what tells of it.
///
/// Any two are equal: an [`Error`](crate::Error) is compared by what happened, and not by what a device says of it.
#[derive(Clone, Debug)]
pub struct DeviceError(Arc<io::Error>);

impl Deref for DeviceError {
    type Target = io::Error;

    fn deref(&self) -> &io::Error {
        &self.0
    }
}

impl fmt::Display for DeviceError {
    fn fmt(&self, f: &mut fmt::Formatter<'_>) -> fmt::Result {
        self.0.fmt(f)
    }
}

impl PartialEq for DeviceError {
    fn eq(&self, _: &Self) -> bool {
        true
    }
}

impl Eq for DeviceError {}

impl From<io::Error> for DeviceError {
    fn from(error: io::Error) -> Self {
        DeviceError(Arc::new(error))
    }
}

impl From<ErrorKind> for DeviceError {
    fn from(kind: ErrorKind) -> Self {
        io::Error::from(kind).into()
    }
}

impl From<Failed> for DeviceError {
    fn from(failed: Failed) -> Self {
        failed.0
    }
}

/// A reader or a writer failed, and the failure was counted.
///
/// It is made of the device's [`io::Error`], which is its source.
#[derive(Clone, Debug, PartialEq, Eq, Error)]
#[error("a reader or a writer failed")]
pub struct Failed(#[source] DeviceError);

impl Failed {
    /// The error of the reader or the writer.
    pub fn error(&self) -> &DeviceError {
        &self.0
    }
}

impl From<DeviceError> for Failed {
    fn from(error: DeviceError) -> Self {
        Failed(error)
    }
}

impl From<io::Error> for Failed {
    fn from(error: io::Error) -> Self {
        Failed(error.into())
    }
}

impl From<ErrorKind> for Failed {
    fn from(kind: ErrorKind) -> Self {
        Failed(kind.into())
    }
}
