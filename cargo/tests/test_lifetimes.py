"""Tests of types whose lifetime is fixed in the packages."""

import unittest

from rt_to_rust.imports import Place
from tests.samples import Case, PROGRAM, TEST, TOOL, converted, refusal

EVENTS = Place("binlog_events", None, is_test=False)
FILE = Place("binlog_file", None, is_test=False)

STRUCT = "pub struct Event<'d> {\n    fde: Arc<A<'d>>,\n}\n"
STRUCT_WITHOUT = "pub struct Event { fde: Arc<A<'static>>, }"


class Declared(Case):
    """The source that declares the type."""

    def gives_beside(self, text, wanted):
        self.gives(STRUCT + text, STRUCT_WITHOUT + wanted, place=EVENTS)

    def refuses(self, text, message):
        self.assertEqual(refusal(text, EVENTS), message)

    def test_the_struct_has_no_parameter(self):
        self.gives_beside("", "")

    def test_other_parameters_stay(self):
        text = "impl<'a, 'd> From<A<'a>> for Event<'d> {\n    fn f(a: A<'a>, b: B<'a, 'd>) {}\n}"
        self.gives_beside(text, "impl<'a> From<A<'a>> for Event { fn f(a: A<'a>, b: B<'a, 'static>) {} }")

    def test_a_block_has_no_parameter(self):
        text = "impl<'d> Event<'d> {\n    pub fn fde(&self) -> &A<'d> {\n        &self.fde\n    }\n}"
        self.gives_beside(text, "impl Event { pub fn fde(&self) -> &A<'static> { &self.fde } }")

    def test_a_block_of_a_trait_has_no_parameter(self):
        text = "impl<'d> PartialEq for Event<'d> {\n    fn eq(&self, other: &Event<'d>) -> bool {\n        true\n    }\n}"
        self.gives_beside(text, "impl PartialEq for Event { fn eq(&self, other: &Event) -> bool { true } }")

    def test_a_bound_of_the_parameter_goes(self):
        text = "impl<'d> Event<'d> {\n    fn f<'a>(&'a self)\n    where\n        'd: 'a,\n        ensures { b }\n    {}\n}"
        self.gives_beside(text, "impl Event { fn f<'a>(&'a self) {} }")

    def test_other_bounds_stay(self):
        text = "impl<'d> Event<'d> {\n    fn f<'a, T>(&'a self)\n    where\n        'd: 'a,\n        T: B,\n    {}\n}"
        self.gives_beside(text, "impl Event { fn f<'a, T>(&'a self) where T: B, {} }")
        text = "impl<'d> Event<'d> {\n    fn f<'a, T>(&'a self)\n    where\n        T: B,\n        'd: 'a\n    {}\n}"
        self.gives_beside(text, "impl Event { fn f<'a, T>(&'a self) where T: B, {} }")

    def test_a_function_that_gives_the_type_has_no_parameter(self):
        text = "pub fn event_of<'d>(fde: A<'d>) -> Result<Event<'d>, Error> {\n    g::<'d>(fde)\n}"
        message = "sample.rt:5: 'd in a place that isn't known"
        self.refuses(STRUCT + text, message)
        text = text.replace("g::<'d>", "g")
        self.gives_beside(text, "pub fn event_of(fde: A<'static>) -> Result<Event, Error> { g(fde) }")

    def test_a_function_without_the_type_keeps_its_parameter(self):
        text = "pub fn share<'d>(fde: &'d A<'d>) -> A<'d> {\n    fde\n}"
        self.gives_beside(text, "pub fn share<'d>(fde: &'d A<'d>) -> A<'d> { fde }")

    def test_uses_under_any_lifetime_are_the_type(self):
        text = "fn f(a: &Event<'_>, b: Vec<Event<'static>>) -> Event {}"
        self.gives_beside(text, "fn f(a: &Event, b: Vec<Event>) -> Event {}")

    def test_documentation_is_silent_on_the_parameter(self):
        text = "/// An event. Its bytes are borrowed for `'d`; an `Event<'static>` owns them. A file gives `Event<'static>`.\n"
        self.gives(text + STRUCT, "/// An event. A file gives `Event`.\n" + STRUCT_WITHOUT, place=EVENTS)

    def test_a_type_without_the_parameter_is_refused(self):
        self.refuses("\npub struct Event {\n    a: A,\n}", "sample.rt:2: `Event` without the parameter 'd")
        self.refuses("\npub struct Event<'b> {\n    a: A<'b>,\n}", "sample.rt:2: `Event` without the parameter 'd")

    def test_a_parameter_with_bounds_is_refused(self):
        self.refuses("struct Event<'d: 'a, 'a> {\n    a: A<'d>,\n}", "sample.rt:1: the parameter 'd has bounds")

    def test_another_bound_is_refused(self):
        text = "impl<'d> Event<'d> {\n    fn f<'a>(&'a self)\n    where\n        'd: 'a + 'b,\n    {}\n}"
        self.refuses(STRUCT + text, "sample.rt:7: a bound of 'd of a form that isn't known")
        text = "impl<'d> Event<'d> {\n    fn f<T>(&self)\n    where\n        T: 'd,\n    {}\n}"
        self.refuses(STRUCT + text, "sample.rt:7: 'd in a place that isn't known")

    def test_a_second_declaration_is_refused(self):
        text = "impl<'d> Event<'d> {\n    fn f(&self) {\n        fn g<'d>(a: A<'d>) {}\n    }\n}"
        self.refuses(STRUCT + text, "sample.rt:6: 'd in a place that isn't known")
        text = "impl<'d> Event<'d> {\n    fn f(&self, g: impl for<'d> Fn(A<'d>)) {}\n}"
        self.refuses(STRUCT + text, "sample.rt:5: 'd in a place that isn't known")


class Used(Case):
    """The sources that use the type."""

    def test_a_crate_of_the_library(self):
        text = "use binlog_events::Event;\nimpl Iterator for A {\n    type Item = Result<Event<'static>, Error>;\n}"
        wanted = "use crate::binlog_events::Event; impl Iterator for A { type Item = Result<Event, Error>; }"
        self.gives(text, wanted, place=FILE)

    def test_types_of_longer_names_keep_their_lifetimes(self):
        text = "fn f(a: TableMapEvent<'static>, b: Event<'_>, c: EventRef<'_>) {}"
        self.gives(text, "fn f(a: TableMapEvent<'static>, b: Event, c: EventRef<'_>) {}")

    def test_another_lifetime_is_refused(self):
        for place in (FILE, TOOL, TEST, PROGRAM):
            text = "fn f<'a>() {}\nfn g<'a>(b: Event<'a>) {}"
            self.assertEqual(refusal(text, place), "sample.rt:2: `Event` under a lifetime that isn't known")
        self.assertEqual(refusal("fn g(b: Event<u8>) {}"), "sample.rt:1: `Event` under a lifetime that isn't known")

    def test_an_inferred_lifetime_is_refused(self):
        text = "fn f() {\n    Event::<'static>::read();\n}"
        self.assertEqual(refusal(text), "sample.rt:2: `Event` under a lifetime that isn't known")

    def test_another_type_of_the_name_is_refused(self):
        message = "sample.rt:1: another `Event` than that of binlog_events"
        for text in ("pub struct Event<'d>(&'d u8);", "enum Event {}", "use json::Event;"):
            self.assertEqual(refusal(text, FILE), message)

    def test_another_name_of_the_type_is_refused(self):
        for text in ("use binlog_events::{A, Event as B};", "use binlog_events::Event as B;"):
            self.assertEqual(refusal(text, FILE), "sample.rt:1: `Event` under another name")


if __name__ == "__main__":
    unittest.main()
