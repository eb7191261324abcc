//! The tests of the proved sources, as tests of the crate `binlog`.
#![forbid(unsafe_code)]
// The sources drop values by name, and have bytes as a log has them.
#![allow(clippy::drop_non_drop, clippy::octal_escapes)]

use std::borrow::Cow;

/// The example of the packages' README.
#[cfg(doctest)]
#[doc = include_str!("../../README.md")]
pub struct Readme;

/// The error of a test.
pub type Fail = Box<dyn std::error::Error>;

/// The text of a `Cow`, by the name that the tests call.
pub trait AsStr {
    /// The text.
    fn as_str(&self) -> &str;
}

impl AsStr for Cow<'_, str> {
    fn as_str(&self) -> &str {
        self
    }
}

pub mod examples;
pub mod library_tests;
