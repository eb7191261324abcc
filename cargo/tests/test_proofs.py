"""Tests of what goes with the proofs."""

import unittest

from tests.samples import Case, TEST, converted, refusal


class Proofs(Case):
    def test_contracts_go_with_their_comments(self):
        text = """fn f(a: u8) -> u8
            // What it asks.
            requires small { a < 9 }
            ensures { result ≡ a }
        {
            a
        }"""
        self.gives(text, "fn f(a: u8) -> u8 { a }")

    def test_ghost_members_go_with_their_documentation(self):
        text = "trait A {\n    /// What it is.\n    ghost a: { ℕ };\n\n    /// Calls.\n    fn b(&self);\n}"
        self.gives(text, "trait A { /// Calls. fn b(&self); }")

    def test_ghost_fields_go(self):
        self.gives("struct A {\n    a: u8,\n    ghost b: { a < 9 },\n}", "struct A { a: u8, }")

    def test_models_and_tactics_go(self):
        text = "#![tactic(auto)]\nuse std::marker::Model;\nimpl Model for A {\n    ghost view = { λ a. a };\n}\nfn f() {}"
        self.gives(text, "fn f() {}")

    def test_names_of_cycles_go(self):
        self.gives("#[cycle(a)]\nfn f() {\n    g().cycle();\n}", "fn f() { g().cycle(); }")

    def test_laws_go_with_their_calls(self):
        text = "mod laws;\nuse binlog_consts::laws::are_codes;\nfn f() {\n    are_codes();\n    g();\n}"
        self.gives(text, "fn f() { g(); }")

    def test_a_file_s_own_tests_go(self):
        self.gives("fn f() {}\n\n#[cfg(test)]\nmod tests;", "fn f() {}")

    def test_drops_go(self):
        text = "#[derive(Debug, Drop)]\nstruct A<T: B + Drop, U: Drop>(T, U);\n#[derive(Drop)]\nstruct C;"
        self.gives(text, "#[derive(Debug)] struct A<T: B, U>(T, U); struct C;")

    def test_labels_to_which_nothing_jumps_go(self):
        text = "fn f() {\n    'a: loop { break 'a; }\n    'b: for _ in 0..2 {}\n}"
        self.gives(text, "fn f() { 'a: loop { break 'a; } for _ in 0..2 {} }")

    def test_a_label_of_another_function_is_another_one(self):
        text = "fn f() {\n    'a: loop { break 'a; }\n}\nfn g() {\n    'a: for _ in 0..2 {}\n}"
        self.gives(text, "fn f() { 'a: loop { break 'a; } } fn g() { for _ in 0..2 {} }")

    def test_a_bound_of_another_form_is_refused(self):
        self.assertEqual(refusal("fn f<T>()\nwhere\n    Drop: T,\n{}"), "sample.rt:3: a bound of `Drop` in a place that isn't known")


class Visibility(Case):
    def test_a_public_method_that_asks_is_the_crate_s_own(self):
        text = "impl A {\n    pub fn f(&self)\n        requires { a }\n    {}\n}"
        self.gives(text, "impl A { pub(crate) fn f(&self) {} }")

    def test_a_closure_that_can_be_called_is_nothing_to_ask(self):
        text = "impl A {\n    pub fn f(&self)\n        requires { F.IsAlwaysCallable f }\n    {}\n}"
        self.gives(text, "impl A { pub fn f(&self) {} }")

    def test_an_enumeration_of_the_table_may_grow(self):
        self.gives("pub enum Error {\n    A,\n}", "#[non_exhaustive] pub enum Error { A }")

    def test_a_public_function_that_asks_is_refused(self):
        text = "pub fn Held()\n    requires { a }\n{}"
        self.assertEqual(refusal(text), "sample.rt:1: `Held` is public and asks its callers for something")

    def test_a_method_of_a_public_trait_that_asks_is_refused(self):
        text = "pub trait Held {\n    fn f(&self)\n        requires { a };\n}"
        self.assertEqual(refusal(text), "sample.rt:2: `Held::f` is of a public trait and asks its callers for something")

    def test_a_method_of_the_crate_s_own_trait_may_ask(self):
        text = "pub trait Kept {\n    fn f(&self)\n        requires { a };\n}"
        self.gives(text, "pub trait Kept { fn f(&self); }")

    def test_a_type_of_the_hidden_module_may_ask(self):
        text = "impl Line {\n    pub fn f(&self)\n        requires { a }\n    {}\n}"
        self.gives(text, "impl Line { pub fn f(&self) {} }")

    def test_a_method_of_the_table_looks_itself(self):
        text = "impl GnoSet {\n    pub fn contains_all(&self, start: u64, end: u64)\n        requires { start < end }\n    {}\n}"
        self.has(text, "{ assert!(start < end);}")
        self.has(text, "/// # Panics /// /// Unless `start < end`.")


class Documentation(Case):
    def test_sentences_on_contracts_go(self):
        text = "/// A set. Contracts see a list. It is small.\nstruct A;"
        self.gives(text, "/// A set. It is small. struct A;")

    def test_a_paragraph_on_a_contract_goes(self):
        text = "/// A set.\n///\n/// Its contract is `a`: what it is. By default none.\ntrait A {\n    ghost a: { ℕ };\n}"
        self.gives(text, "/// A set. trait A { }")

    def test_other_documentation_stays_as_it_is(self):
        text = "/// A set:\n///\n/// - one, of\n///   two lines;\n/// - two.\nstruct A;"
        self.gives(text, " ".join(text.split()))


    def test_allocators_and_retrying_are_spoken_of_in_other_words(self):
        for text, wanted in [
            ("Reads it. Needs no allocator.", "Reads it. Takes no memory."),
            ("`columns.collect(alloc)?` keeps them.", "`columns.collect::<Vec<_>>()` keeps them."),
            ("By `Counted::new(Retrying::new(input))`.", "By `Counted::new(input)`."),
            ("The union, with memory from this set's allocator.", "The union."),
        ]:
            self.gives(f"/// {text}\nstruct A;", f"/// {wanted}\nstruct A;")

    def test_documentation_on_an_allocator_of_another_form_is_refused(self):
        message = "sample.rt:1: documentation on `allocator`, which the packages don't have"
        self.assertEqual(refusal("/// Of the allocator.\nstruct A;"), message)


class Tests(Case):
    def test_tests_need_no_runtime(self):
        text = "#[test]\nfn f(rt: HostRuntime) -> Result<(), Fail> {\n    assert!(rt; g(&rt, rt.alloc(), 1)? == 2);\n    Ok(())\n}"
        self.gives(text, "#[test] fn f() -> Result<(), Fail> { assert!( g( 1)? == 2); Ok(()) }", place=TEST)

    def test_tests_of_laws_go(self):
        self.gives("#[test]\nfn f(rt: HostRuntime) {\n    laws::a();\n}\nfn g() {}", "fn g() {}", place=TEST)

    def test_an_assertion_without_the_runtime_is_refused(self):
        self.assertEqual(refusal("fn f() {\n    assert!(a);\n}", TEST), "sample.rt:2: assert! without the runtime")


if __name__ == "__main__":
    unittest.main()
