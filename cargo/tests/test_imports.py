"""Tests of imports, paths and derives."""

import unittest

from rt_to_rust.imports import Place

from rt_to_rust.facade import public_names
from tests.samples import Case, PROGRAM, TEST, TOOL, converted, refusal, source


class Imports(Case):
    def test_crates_are_modules(self):
        text = "use binlog_consts::{A, B};\nuse crate::c::D;\nfn f() {\n    binlog_variable_fields::g();\n    crate::h();\n}"
        wanted = "use crate::binlog_consts::{A, B}; use crate::binlog_wire::c::D; "
        wanted += "fn f() { crate::binlog_variable_fields::g(); crate::binlog_wire::h(); }"
        self.gives(text, wanted)

    def test_other_packages_name_the_library_by_its_public_paths(self):
        text = "use binlog_file::{Error, Held};\nuse binlog_consts::Kind;\nuse crate::a::B;"
        wanted = "use binlog::Error; use binlog::events::Held; use binlog::consts::Kind; use crate::binlog_visits::a::B;"
        self.gives(text, wanted, place=TOOL)

    def test_a_name_that_two_crates_have_is_that_of_its_crate(self):
        text = "use inflate::Error;\nfn f() -> binlog_file::Error {}"
        self.gives(text, "use binlog::zlib::Error; fn f() -> binlog::Error {}", place=TOOL)

    def test_programs_name_the_packages_modules(self):
        for place in (PROGRAM, TEST):
            self.gives("use binlog_visits::exit_status;", "use binlog_tools::binlog_visits::exit_status;", place=place)

    def test_a_name_that_is_not_public_is_refused(self):
        message = "sample.rt:1: binlog_file::Hidden isn't public in the library"
        self.assertEqual(refusal("use binlog_file::Hidden;", TOOL), message)

    def test_the_toolchain_s_own_names_have_stand_ins(self):
        text = "use std::alloc::{AllocError, Global};\nfn f() -> AllocError {}"
        self.gives(text, "use crate::memory::AllocError; fn f() -> AllocError {}")

    def test_functions_that_rust_has_under_another_name(self):
        text = "use std::num::{f32_from_bits_with_nan, f64_from_bits_with_nan};\n"
        text += "fn f() {\n    f32_from_bits_with_nan(a);\n    f64_from_bits_with_nan(b);\n}"
        self.gives(text, "fn f() { f32::from_bits(a); f64::from_bits(b); }")

    def test_another_import_is_refused(self):
        self.assertEqual(refusal("use std::net::TcpStream;"), "sample.rt:1: an import that isn't known: std::net::TcpStream")

    def test_what_is_passed_on_of_other_crates_goes(self):
        self.gives("pub use binlog_consts::A;\npub use b::C;\nmod b;", "pub use b::C; mod b;")

    def test_links_in_documentation_are_paths(self):
        self.gives("/// See [`crate::a::B`].\nstruct A;", "/// See [`crate::binlog_wire::a::B`]. struct A;")

    def test_links_from_the_facade_lead_to_public_names(self):
        place = Place("binlog_file", None, is_test=False)
        text = "/// See [`crate::Held::f`] and [`crate::Other`].\nstruct A;"
        wanted = "/// See [`crate::events::Held::f`] and [`crate::binlog_file::Other`]. struct A;"
        self.gives(text, wanted, place=place)


class PublicNames(Case):
    def test_names_have_their_modules(self):
        text = "pub use crate::a::{B, c};\npub mod events {\n    pub use crate::d::{B, E};\n}\nuse crate::f::G;"
        wanted = {"B": "binlog::B", "a::B": "binlog::B", "d::B": "binlog::events::B"}
        wanted |= {"c": "binlog::c", "a::c": "binlog::c", "E": "binlog::events::E", "d::E": "binlog::events::E"}
        self.assertEqual(public_names(source(text)), wanted)


class DeriveWhere(Case):
    def test_each_trait_is_written_out(self):
        text = "#[derive_where(Clone, PartialEq; K::P)]\npub struct A<K: B>(pub K::P, #[derive_where(skip)] PhantomData<K>);"
        self.has(text, "pub struct A<K: B>(pub K::P, PhantomData<K>);")
        self.has(text, "impl<K: B> Clone for A<K> where K::P: Clone { fn clone(&self) -> Self { A(self.0.clone(), PhantomData) } }")
        self.has(text, "fn eq(&self, other: &Self) -> bool { self.0 == other.0 }")

    def test_another_trait_is_refused(self):
        text = "#[derive_where(Ord)]\nstruct A<K> {\n    a: K,\n}"
        self.assertEqual(refusal(text), "sample.rt:1: derive_where of Ord")


if __name__ == "__main__":
    unittest.main()
