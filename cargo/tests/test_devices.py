"""Tests of failures with the device's error, of readers and writers by value, of defaults, and of
what is inlined."""

import unittest

from tests.samples import Case, PROGRAM, TEST, TOOL, converted, refusal


class Failures(Case):
    def test_the_variants_of_errors_have_a_source(self):
        text = "#[derive(Clone, Copy, Error)]\npub enum Error {\n    A(u8),\n    Reader,\n}"
        wanted = "#[derive(Clone, Error)] #[non_exhaustive] pub enum Error { A(u8), Reader(#[source] crate::binlog_ends::DeviceError), }"
        self.gives(text, wanted)

    def test_another_enumeration_stays(self):
        text = "#[derive(Clone, Copy)]\npub enum Kind {\n    Reader,\n}"
        self.gives(text, text)

    def test_the_arm_of_a_failure_passes_it_on(self):
        text = "fn f() {\n    match a {\n        Ok(b) => b,\n        Err(Failed) => Err(Error::Writer),\n    }\n}"
        self.has(text, "Ok(b) => b, Err(failed) => Err(Error::Writer(failed.into()))")

    def test_an_arm_that_does_not_needs_no_name(self):
        self.has("fn f() {\n    match a {\n        Err(Failed) => 1,\n    }\n}", "Err(_) => 1")

    def test_a_block_with_two_errors(self):
        text = "fn f() {\n    match a {\n        Err(Failed) => {\n            if b {\n                return Err(Error::Reader);\n            }\n            Err(Error::ReaderInFrame)\n        }\n    }\n}"
        wanted = "Err(failed) => { if b { return Err(Error::Reader(failed.into())); } Err(Error::ReaderInFrame(failed.into())) }"
        self.has(text, wanted)

    def test_a_buffer_that_was_filled_in_part(self):
        text = "#[derive(Clone, Copy)]\nenum Filled {\n    Whole,\n    Failed(usize),\n}\nfn f() {\n    match a {\n        Err(Failed) => Filled::Failed(b),\n        Filled::Failed(0) => Err(Error::Reader),\n    }\n}"
        self.has(text, "#[derive(Clone)] enum Filled { Whole, Failed(usize, Failed), }")
        self.has(text, "Err(failed) => Filled::Failed(b, failed),")
        self.has(text, "Filled::Failed(0, failed) => Err(Error::Reader(failed.into()))")

    def test_an_error_of_the_standard_library(self):
        text = "fn f() {\n    match a {\n        Err(_) => Err(Error::Writer),\n    }\n}"
        self.has(text, "Err(error) => Err(Error::Writer(error.into()))")

    def test_a_flush(self):
        text = "fn f() {\n    if a.b(&c).is_err() {\n        return Err(Error::Writer);\n    }\n}"
        self.has(text, "if let Err(failed) = a.b(&c) { return Err(Error::Writer(failed.into())); }")

    def test_patterns(self):
        text = "fn f() {\n    match a {\n        Error::Reader => 1,\n        Error::Memory | Error::Writer => 2,\n    }\n}"
        self.has(text, "Error::Reader(_) => 1, Error::Memory | Error::Writer(_) => 2")

    def test_a_failure_without_a_device_is_refused(self):
        message = "a failure whose device isn't known"
        self.assertEqual(refusal("fn f() {\n    Err(Error::Reader)\n}"), f"sample.rt:2: {message}")
        self.assertEqual(refusal("fn f() {\n    a.map_err(|_| Error::Writer)\n}"), f"sample.rt:2: {message}")

    def test_two_calls_in_one_condition_are_refused(self):
        text = "fn f() {\n    if a || b.is_err() {\n        return Err(Error::Writer);\n    }\n}"
        self.assertEqual(refusal(text), "sample.rt:2: a failure of a form that isn't known")

    def test_tests_compare_with_any_device(self):
        text = "fn f() {\n    assert!(rt; a == Err(Error::Writer) && b == Err(Failed));\n}"
        kind = "std::io::ErrorKind::Other.into()"
        self.has(text, f"a == Err(Error::Writer({kind})) && b == Err({kind})", place=TEST)


class Interruptions(Case):
    def test_that_it_is_a_failure_is_left_out(self):
        text = "// Says so.\n#[test]\nfn an_interruption_is_a_failure() {\n    f();\n}\n#[test]\nfn g() {\n    f();\n}"
        self.gives(text, "#[test] fn g() { f(); }", place=TEST)

    def test_what_it_alone_calls_is_left_out(self):
        text = "const A: u8 = 1;\n#[test]\nfn an_interruption_is_a_failure() {\n    f(g());\n}\nfn f(a: u8) {\n    f\n}\nfn g() {}\n#[test]\nfn h() {\n    g();\n}"
        self.has(text, "fn g() {} #[test] fn h() { g(); }", place=TEST)
        self.assertNotIn("fn f", converted(text, place=TEST))

    def test_a_device_that_has_to_fail_fails_otherwise(self):
        text = "fn f() {\n    for kind in [ErrorKind::Other, ErrorKind::Interrupted] {\n        g(Err(ErrorKind::Interrupted.into()));\n    }\n}"
        self.gives(text, "fn f() { for kind in [ErrorKind::Other] { g(Err(ErrorKind::Other.into())); } }", place=TEST)

    def test_its_sentence_goes(self):
        text = "/// Reads. A read that was interrupted isn't\n/// retried.\nfn f() {}"
        self.assertEqual(converted(text), "/// Reads.\nfn f() {}")

    def test_a_program_leaves_it_to_the_counting_device(self):
        text = "use binlog_file::{Error, Retrying};\nfn f() {\n    let a = Counted::new(Retrying::new(b(c)));\n}"
        self.has(text, "use binlog::Error;", place=PROGRAM)
        self.has(text, "let a = Counted::new(b(c));", place=PROGRAM)


class Inlined(unittest.TestCase):
    def test_small_functions_are(self):
        text = "/// A.\npub fn f() {\n    g()\n}"
        self.assertEqual(converted(text), "/// A.\n#[inline] pub fn f() {\n    g()\n}")

    def test_long_ones_and_those_that_say_otherwise_are_not(self):
        for text in ("#[cold]\nfn f() {\n    g()\n}", "#[inline(never)]\n#[a]\nfn f() {\n    g()\n}", "fn f() {\n" + 20 * "    g();\n" + "}"):
            self.assertEqual(converted(text), text)

    def test_a_call_of_the_table_is_inlined_and_says_so(self):
        text = "impl Description {\n    /// A. It isn't inlined, since the inlined code is long.\n    #[inline(never)]\n    fn get() {\n        g()\n    }\n}"
        wanted = "impl Description {\n    /// A.\n    #[inline] fn get() {\n        g()\n    }\n}"
        self.assertEqual(converted(text), wanted)

    def test_a_program_s_are_not(self):
        self.assertNotIn("inline", converted("fn f() {\n    g()\n}", place=PROGRAM))


class Defaults(Case):
    def test_a_type_made_of_nothing_has_one(self):
        text = "impl<'a> A<'a> {\n    pub fn new() -> Self {\n        A\n    }\n}"
        wanted = "impl<'a> A<'a> { pub fn new() -> Self { A } } impl<'a> Default for A<'a> { fn default() -> Self { Self::new() } }"
        self.gives(text, wanted)

    def test_another_type_has_none(self):
        for text in ("impl A { pub fn new(a: u8) -> Self { A } }", "impl A { fn new() -> Self { A } }"):
            self.gives(text, text)
        text = "impl A { pub fn new() -> Self { A } } impl Default for A { fn default() -> Self { A } }"
        self.gives(text, text)


class ByValue(Case):
    def test_a_public_reader(self):
        text = "impl Held {\n    pub fn f<R: BufRead>(input: &mut R) {\n        g(input)\n    }\n}"
        self.gives(text, "impl Held { pub fn f<R: BufRead>(mut input: R) { let input = &mut input; g(input) } }")

    def test_a_tool_s_writer(self):
        text = "pub fn f<A: B, W: Write>(a: &mut A, output: &mut W) {\n    g(a, output)\n}"
        wanted = "pub fn f<A: B, W: Write>(a: &mut A, mut output: W) { let output = &mut output; g(a, output) }"
        self.gives(text, wanted, place=TOOL)

    def test_what_no_user_calls_stays(self):
        text = "impl Kept {\n    pub fn f<R: BufRead>(input: &mut R) {\n        g(input)\n    }\n}"
        self.gives(text, text)
        text = "impl Held {\n    fn f<R: BufRead>(input: &mut R) {\n        g(input)\n    }\n}"
        self.gives(text, text)

    def test_a_test_lends_its_own_on(self):
        text = "fn f(output: &mut Vec<u8>, a: u8) {\n    b.write(a, output);\n    c(output);\n}"
        wanted = "fn f(output: &mut Vec<u8>, a: u8) { b.write(a, &mut *output); c(output); }"
        self.gives(text, wanted, place=TEST)


if __name__ == "__main__":
    unittest.main()
