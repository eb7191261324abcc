"""The machine that the program takes."""

import unittest

from rt_to_rust.passes import Used, rust
from tests.samples import PROGRAM, PUBLIC, TOOL, Case, refusal, spaceless


class Host(Case):
    def test_a_message_is_a_call_of_the_machine(self):
        text = 'use std::io;\nfn f<E: Eprint>(rt: &E, n: u8) {\n    let _ = eprintln!(rt; "a {n}");\n}'
        wanted = 'use crate::host::Eprint; use std::io; fn f<E: Eprint>(rt: &E, n: u8) { let _ = rt.eprintln(format_args!("a {n}")); }'
        self.gives(text, wanted, place=TOOL)

    def test_a_message_of_a_field_is_a_call_of_it(self):
        text = 'fn f(self: &A) {\n    let _ = eprint!(self.rt; "a {}", g(1, 2));\n}'
        self.has(text, 'let _ = self.rt.eprint(format_args!("a {}", g(1, 2)));', place=TOOL)

    def test_an_error_is_copied(self):
        self.has("fn f(error: &E) -> A {\n    Err(*error)\n}", "fn f(error: &E) -> A { Err(error.copied()) }", place=TOOL)

    def test_no_machine_allocates(self):
        text = "fn f<R: Eprint + AllocGlobal, S: AllocGlobal, T: AllocGlobal + Print>(rt: &R) {\n}"
        self.has(text, "fn f<R: Eprint, S, T: Print>(rt: &R) { }", place=TOOL)

    def test_main_makes_the_machine(self):
        text = "use std::io;\nfn main(rt: HostRuntime) -> ExitCode {\n    run(&rt, io::writer(&rt), io::writer(rt))\n}"
        wanted = "fn main() -> ExitCode { let rt = Host; run(&rt, io::writer(&rt), io::stdout().lock()) }"
        self.has(text, wanted, place=PROGRAM)

    def test_the_machine_s_names_are_those_of_the_module(self):
        text = "use std::rt::Files;\nuse std::{fs, io};\nfn f<R: Files + Input>(rt: &R) {\n    fs::open(rt, \"\");\n}"
        for place, root in ((TOOL, "crate"), (PROGRAM, "binlog_tools")):
            self.has(text, f"use {root}::host::Files; use {root}::host::fs;", place=place)
            self.has(text, f"use {root}::host::Input;", place=place)

    def test_clap_and_jiff_are_modules(self):
        text = "use clap::ArgMatches;\nfn f(error: &clap::Error) {\n}"
        wanted = "use binlog_tools::clap::ArgMatches; fn f(error: &binlog_tools::clap::Error) { }"
        self.gives(text, wanted, place=PROGRAM)

    def test_the_version_says_how_the_program_was_made(self):
        used = Used()
        text = 'const VERSION: &str = "1.2 (proved)";\n'
        found = rust("sample.rt", text, TOOL, PUBLIC, (), used)
        tested = 'const VERSION: &str = "1.2 (made from the proved sources, compiled by rustc, tested)";'
        self.assertEqual(spaceless(found), spaceless(tested))
        self.assertEqual(used.versions, {"VERSION"})

    def test_a_version_that_does_not_say_it_is_refused(self):
        text = 'const VERSION: &str = "1.2";\n'
        self.assertEqual(refusal(text, TOOL), "sample.rt:1: `VERSION` doesn't say `(proved)`")


class Failures(Case):
    def test_a_failure_that_is_passed_on_has_its_error(self):
        text = "fn f(a: R) -> R {\n    match a {\n        Err(Error::Writer) => Err(Error::Writer),\n        Err(Error::Reader) => g(),\n        a => a,\n    }\n}"
        wanted = "Err(Error::Writer(error)) => Err(Error::Writer(error.into())), Err(Error::Reader(_)) => g(),"
        self.has(text, wanted, place=TOOL)


class Types(Case):
    def test_a_type_that_derives_default_gets_no_other_one(self):
        text = "#[derive(Clone, Default)]\npub struct A {\n    n: u8,\n}\nimpl A {\n    pub fn new() -> A {\n        A { n: 0 }\n    }\n}"
        self.assertNotIn("Default for A", rust("sample.rt", text, TOOL, PUBLIC, (), Used()))

    def test_a_predicate_of_drop_goes(self):
        text = "fn f<T>(a: T)\nwhere\n    T: Drop,\n    ensures { x }\n{\n}\nfn g<T>(a: T)\nwhere\n    T: Drop,\n    T: Copy,\n{\n}"
        self.gives(text, "fn f<T>(a: T) { } fn g<T>(a: T) where T: Copy, { }", place=TOOL)


if __name__ == "__main__":
    unittest.main()
