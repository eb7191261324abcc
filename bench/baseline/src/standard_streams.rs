//! Standard input and output, and how a run ends.
//!
//! The descriptors are taken as files, since the standard handles would add a
//! buffer of their own, and a search for line ends on output.

use crate::frames::Frames;
use std::fs::File;
use std::io::{self, BufReader};
use std::os::fd::AsFd;

pub const BUFFER_LENGTH: usize = 64 * 1024;

/// How a run ended; the numbers are exit statuses.
#[derive(Clone, Copy)]
pub enum Outcome {
    Fine = 0,
    NotABinlog = 1,
    ErrorItem = 2,
    Failure = 3,
}

/// The frames of the binlog on standard input; None if it is no binlog.
pub fn standard_frames() -> io::Result<Option<Frames<BufReader<File>>>> {
    Frames::new(BufReader::with_capacity(BUFFER_LENGTH, standard_input()?))
}

pub fn standard_input() -> io::Result<File> {
    Ok(File::from(io::stdin().as_fd().try_clone_to_owned()?))
}

pub fn standard_output() -> io::Result<File> {
    Ok(File::from(io::stdout().as_fd().try_clone_to_owned()?))
}
