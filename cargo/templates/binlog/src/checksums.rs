//! CRC-32 without a function of the caller's.

use std::io::{BufRead, Write};

use crate::binlog_consts::{BinlogChecksumAlg, BinlogVersion};
use crate::binlog_ends::Counted;
use crate::binlog_events::{Event, EventRef};
use crate::binlog_file::{BinlogFileOf, Verified, VerifiedFile, VerifiedSlice};
use crate::binlog_wire::Error;

/// The CRC-32 of the bytes, as servers compute it for their events.
///
/// With the feature `crc32fast` it is computed by that crate, which uses the processor's instructions where it has any;
/// else by the tables of [`Crc32`](crate::Crc32), which are made once.
#[cfg(feature = "crc32fast")]
pub fn crc32(bytes: &[u8]) -> u32 {
    crc32fast::hash(bytes)
}

/// The CRC-32 of the bytes, as servers compute it for their events.
///
/// With the feature `crc32fast` it is computed by that crate, which uses the processor's instructions where it has any;
/// else by the tables of [`Crc32`](crate::Crc32), which are made once.
#[cfg(not(feature = "crc32fast"))]
pub fn crc32(bytes: &[u8]) -> u32 {
    static TABLES: std::sync::LazyLock<crate::Crc32> = std::sync::LazyLock::new(crate::Crc32::new);
    TABLES.checksum(bytes)
}

/// [`crc32`] as a value.
type Function = fn(&[u8]) -> u32;

/// A file whose checksums are verified by [`crc32`].
pub type Crc32File<R> = VerifiedFile<R, Function>;

/// A log in memory whose checksums are verified by [`crc32`].
pub type Crc32Slice<'a> = VerifiedSlice<'a, Function>;

impl EventRef<'_> {
    /// The checksum that the event has to have: [`EventRef::calc_checksum`] by [`crc32`], under the algorithm that its
    /// footer states, or under CRC-32 if that states none or an unknown one.
    ///
    /// # Errors
    ///
    /// [`Error::Memory`] alone.
    pub fn calc_crc32(&self) -> Result<u32, Error> {
        let footer = self.footer();
        let algorithm = match footer.get_checksum_alg() {
            Ok(Some(algorithm)) => algorithm,
            _ => BinlogChecksumAlg::BINLOG_CHECKSUM_ALG_CRC32,
        };
        self.calc_checksum(algorithm, crc32)
    }

    /// Writes the event: [`EventRef::write`] by [`crc32`].
    ///
    /// # Errors
    ///
    /// Those of [`EventRef::write`].
    pub fn write_crc32<W: Write>(&self, version: BinlogVersion, output: W) -> Result<(), Error> {
        self.write(version, crc32, output)
    }
}

impl Event {
    /// The checksum that the event has to have, as [`EventRef::calc_crc32`] computes it.
    ///
    /// # Errors
    ///
    /// [`Error::Memory`] alone.
    pub fn calc_crc32(&self) -> Result<u32, Error> {
        self.as_ref().calc_crc32()
    }

    /// Writes the event, as [`EventRef::write_crc32`] does.
    ///
    /// # Errors
    ///
    /// Those of [`EventRef::write`].
    pub fn write_crc32<W: Write>(&self, version: BinlogVersion, output: W) -> Result<(), Error> {
        self.as_ref().write_crc32(version, output)
    }
}

impl<R: BufRead> BinlogFileOf<Counted<R>, Verified<Function>> {
    /// Reads the file header as [`VerifiedFile::new`] does, of a file whose checksums are verified by [`crc32`].
    ///
    /// ```
    /// use binlog::consts::BinlogVersion;
    /// use binlog::{Crc32File, Error};
    ///
    /// fn is_sound(input: impl std::io::BufRead) -> Result<bool, Error> {
    ///     let mut file = Crc32File::verified(BinlogVersion::Version4, input)?;
    ///     while let Some(item) = file.next_ref() {
    ///         match item {
    ///             Ok(_) => {}
    ///             Err(Error::ChecksumMismatch { .. }) => return Ok(false),
    ///             Err(error) => return Err(error),
    ///         }
    ///     }
    ///     Ok(true)
    /// }
    ///
    /// assert_eq!(is_sound(&b"\xfebin"[..]), Ok(true));
    /// ```
    ///
    /// # Errors
    ///
    /// Those of [`VerifiedFile::new`].
    pub fn verified(version: BinlogVersion, read: R) -> Result<Crc32File<R>, Error> {
        VerifiedFile::new(version, crc32 as Function, read)
    }
}

impl<'a> VerifiedSlice<'a, Function> {
    /// Checks the file header as [`VerifiedSlice::new`] does, of a log whose checksums are verified by [`crc32`].
    ///
    /// # Errors
    ///
    /// Those of [`VerifiedSlice::new`].
    pub fn verified(version: BinlogVersion, bytes: &'a mut [u8]) -> Result<Crc32Slice<'a>, Error> {
        VerifiedSlice::new(version, crc32 as Function, bytes)
    }
}
