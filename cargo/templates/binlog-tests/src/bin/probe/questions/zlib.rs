//! Texts of zlib streams.
use super::bytes::{limited_bytes_of, shown};
use binlog::zlib::decompress_zlib;

/// The answer to a question of a zlib stream.
pub(crate) fn answer(asked: &str) -> Option<String> {
    let (limit, stream) = limited_bytes_of(asked)?;
    Some(match decompress_zlib(&stream, limit) {
        Ok(text) => shown(&text),
        Err(error) => format!("refused {error:?}"),
    })
}
