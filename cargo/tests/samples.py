"""Conversions of short sources."""

import unittest

from rt_to_rust.imports import Place
from rt_to_rust.passes import Used, rust
from rt_to_rust.source import Source
from rt_to_rust.tokens import Refusal

PUBLIC = {
    "Held": "binlog::events::Held",
    "Error": "binlog::Error",
    "Kind": "binlog::consts::Kind",
    "Line": "binlog::json_lines::Line",
    "inflate::Error": "binlog::zlib::Error",
    "Retrying": "binlog::counted::Retrying",
}
LIBRARY = Place("binlog_wire", None, is_test=False)
TOOL = Place("binlog_visits", PUBLIC, is_test=False)
PROGRAM = Place(None, PUBLIC, is_test=False)
TEST = Place("library_tests", PUBLIC, is_test=True)


def source(text):
    return Source("sample.rt", text)


def converted(text, place=LIBRARY, clones=()):
    """The Rust text of a source."""
    return rust("sample.rt", text, place, PUBLIC, clones, Used())


def spaceless(text):
    """A text without spaces, and without commas in front of a closing bracket, which `rustfmt` sets; and without the
    attribute of the small functions that most samples are."""
    return "".join(text.split()).replace(",)", ")").replace(",}", "}").replace("#[inline]", "")


class Case(unittest.TestCase):
    """Tests of conversions, which compare texts without their layout."""

    def gives(self, text, wanted, **settings):
        self.assertEqual(spaceless(converted(text, **settings)), spaceless(wanted))

    def has(self, text, wanted, **settings):
        self.assertIn(spaceless(wanted), spaceless(converted(text, **settings)))


def refusal(text, place=LIBRARY):
    """The message with which a source is refused."""
    try:
        converted(text, place)
    except Refusal as refused:
        return str(refused)
    raise AssertionError("not refused")
