"""Tests of allocators, growth, and calls with two forms."""

import unittest

from tests.samples import Case, PROGRAM, TEST, converted, refusal


class Allocators(Case):
    def test_parameters_and_arguments_go(self):
        text = "fn f(alloc: Global, a: u8, _alloc: Global) { g(alloc, a); h(a, self.alloc); i(alloc) }"
        self.gives(text, "fn f( a: u8,) { g( a); h(a,); i() }")

    def test_fields_and_bindings_go(self):
        text = "struct A {\n    a: u8,\n    alloc: Global,\n}\nfn f() {\n    let alloc = *self.a.allocator();\n    A { a, alloc }\n}"
        self.gives(text, "struct A { a: u8, } fn f() { A { a } }")

    def test_what_is_left_of_a_pair_is_no_pair(self):
        self.gives("fn f() {\n    let (alloc, a) = (rt.alloc(), g());\n}", "fn f() { let a = g(); }")

    def test_another_form_is_refused(self):
        self.assertEqual(refusal("fn f() {\n    g(&alloc)\n}"), "sample.rt:2: `alloc` in a place that isn't known")


class Growth(Case):
    def test_a_growth_that_has_room_is_rust_s_own(self):
        text = "fn f(buf: &mut Vec<u8>) {\n    buf.push(1).unwrap();\n}"
        self.gives(text, "fn f(buf: &mut Vec<u8>) { buf.push(1); }")

    def test_another_growth_may_be_refused(self):
        text = "fn f(alloc: Global) -> Result<(), Error> {\n    let mut a = Vec::new(alloc);\n    a.push(1)?;\n    Ok(())\n}"
        wanted = "use crate::memory::TryGrow; fn f() -> Result<(), Error> { let mut a = Vec::new(); a.try_push(1)?; Ok(()) }"
        self.gives(text, wanted)

    def test_a_type_s_own_call_stays(self):
        text = "struct A {\n    set: GnoSet,\n}\nimpl A {\n    fn f(&mut self) {\n        self.set.insert(1, 2)\n    }\n}"
        self.has(text, "self.set.insert(1, 2)")

    def test_a_receiver_whose_type_is_not_stated_is_refused(self):
        message = "sample.rt:3: the type of `a` isn't stated"
        self.assertEqual(refusal("fn f() {\n    let a = b();\n    a.push(1)?;\n}"), message)

    def test_a_field_that_is_bound_has_its_type(self):
        text = "struct A {\n    items: Vec<u8>,\n}\nimpl A {\n    fn f(self) {\n        let A { mut items, .. } = self;\n        items.push(1)?;\n    }\n}"
        self.has(text, "items.try_push(1)?;")

    def test_the_growth_of_a_map_is_rust_s_own(self):
        text = "struct A {\n    tables: BTreeMap<u8, u8>,\n}\nimpl A {\n    fn f(&mut self) {\n        self.tables.insert(1, 2)?;\n    }\n}"
        self.has(text, "self.tables.insert(1, 2);")

    def test_copies_of_slices(self):
        self.has("fn f(alloc: Global, a: &[u8]) {\n    a.to_vec(alloc)?;\n}", "vec_from_slice(a)?;")

    def test_vectors_with_memory(self):
        text = "fn f() {\n    Vec::with_capacity(alloc, 9)?;\n    Vec::from_slice(alloc, b)?;\n}"
        self.has(text, "vec_with_capacity( 9)?; vec_from_slice( b)?;")

    def test_vectors_of_copies(self):
        self.has("fn f() {\n    vec![in alloc; 0; 1 << bits]?;\n}", "vec_filled(0, 1 << bits)?;")

    def test_items_of_an_iterator(self):
        text = "fn f(alloc: Global) {\n    a.split(',').collect(alloc)?;\n}"
        self.gives(text, "use crate::memory::TryCollect; fn f() { a.split(',').try_collect_vec()?; }")

    def test_texts_with_arguments(self):
        self.has('fn f() {\n    format!(in self.alloc; "@{}", a + 1)?;\n}', 'try_format(format_args!("@{}", a + 1))?;')

    def test_a_conversion_of_a_failure_with_its_value_goes(self):
        text = "use std::alloc::AllocFailed;\nimpl<T: Drop> From<AllocFailed<T>> for A {\n    fn from(_e: AllocFailed<T>) -> A {\n        A::B\n    }\n}\nfn f() {}"
        self.gives(text, "fn f() {}")


HELD = """impl<'a, K: A> TryClone for Held<'a, K> {
    fn clone(&self, alloc: Global) -> Result<Self, Error> {
        Ok(Held(self.0.clone(alloc)?))
    }
}

impl<'a, K: A> IntoOwned for Held<'a, K> {
    type Owned = Held<'static, K>;

    fn into_owned(self, alloc: Global) -> Result<Held<'static, K>, Error> {
        Ok(Held(self.0.into_owned(alloc)?))
    }
}"""

SET = """impl Held {
    pub fn clone(&self) -> Result<Self, Error> {
        Ok(Held(1))
    }
}"""


class BothForms(Case):
    def test_the_proved_form_is_try(self):
        body = "{ Ok(Held(self.0.try_into_owned()?)) }"
        self.has(HELD, f"fn try_into_owned(self) -> Result<Held<'static, K>, Error> {body}")
        self.has(HELD, "fn try_clone(&self) -> Result<Self, Error> { Ok(Held(self.0.try_clone()?)) }")

    def test_a_trait_has_the_proved_form_alone(self):
        text = "pub trait TryClone: Sized {\n    fn clone(&self, alloc: Global) -> Result<Self, Error>;\n}"
        self.gives(text, "pub trait TryClone: Sized { fn try_clone(&self) -> Result<Self, Error>; }")

    def test_the_plain_form_is_a_block_of_its_own(self):
        wanted = "impl<'a, K: A> Held<'a, K> { /// The same value, which borrows nothing. "
        wanted += "/// /// # Panics /// /// If memory runs out. pub fn into_owned(self) -> Held<'static, K> "
        self.has(HELD, wanted + '{ self.try_into_owned().expect("out of memory") }')
        self.has(HELD, "impl<'a, K: A> Clone for Held<'a, K> { fn clone(&self) -> Self {")
        self.has(SET, "impl Clone for Held { fn clone(&self) -> Self {")

    def test_a_type_of_the_crate_s_own_has_the_proved_form_alone(self):
        self.assertNotIn("fn into_owned", converted(HELD.replace("Held", "Hidden")))

    def test_copies_are_told_apart_by_their_types(self):
        text = "enum E {\n    A(Small),\n    B(GnoSet),\n}\nfn f(e: &E) {\n    match e {\n"
        text += "        Self::A(a) => a.clone()?,\n        Self::B(b) => b.clone()?,\n    }\n}"
        self.has(text, "Self::A(a) => a.clone(), Self::B(b) => b.try_clone()?", clones={"GnoSet"})


    def test_room_may_be_refused(self):
        text = "fn f(a: &mut Vec<u8>, b: &mut B) -> Result<(), Error> {\n    b.reserve(1)?;\n    Ok(a.reserve(1)?)\n}"
        self.has(text, "b.reserve(1)?; Ok(a.try_reserve(1)?)")

    def test_texts_grow_by_calls_that_may_be_refused(self):
        text = "use std::fmt::Write;\nfn f(a: &mut String, b: B) {\n    a.push_str(c)?;\n    write!(a, \"{c}\")?;\n}"
        wanted = 'use crate::memory::TryGrowText; use crate::memory::TryWrite; fn f(a: &mut String, b: B) { a.try_push_str(c)?; write!(a, "{c}")?; }'
        self.gives(text, wanted)

    def test_texts_grow_by_characters(self):
        text = "fn f(a: &mut String, b: &mut Vec<char>, c: &mut B) {\n    a.push('c')?;\n    b.push('c')?;\n    c.push('c');\n}"
        self.has(text, "a.try_push_char('c')?; b.try_push('c')?; c.push('c');")


class Borrowing(Case):
    def test_any_value_that_makes_a_cow_is_taken(self):
        text = "use std::borrow::CowSlice;\nimpl<'a> A<'a> {\n    pub fn new(a: CowSlice<'a, u8>) -> Self {\n        A { a }\n    }\n}"
        wanted = "pub fn new(a: impl Into<Cow<'a, [u8]>>) -> Self { let a: Cow<'a, [u8]> = a.into(); A { a } }"
        self.has(text, wanted)

    def test_what_is_passed_on_needs_no_conversion(self):
        text = "impl<'a> A<'a> {\n    pub fn new(a: CowSlice<'a, u8>) -> Self {\n        A(B::new(a), B::new(CowSlice::Borrowed(b)))\n    }\n}"
        self.has(text, "{ A(B::new(a), B::new(b)) }")

    def test_the_slice_of_a_cow(self):
        text = "use std::borrow::CowStr;\nstruct A<'a> {\n    a: CowStr<'a, Global>,\n    b: Vec<u8>,\n}\nfn f() {\n    self.a.as_str();\n    self.b.as_slice();\n}"
        self.has(text, "self.a.as_ref(); self.b.as_slice();")


    def test_a_proved_form_with_a_shared_owner_has_another_name(self):
        text = "impl Event {\n    pub fn read(fde: &Arc<B>) {}\n}\nimpl C {\n    pub fn read(fde: &Arc<B>) {}\n}"
        self.has(text, "impl Event { pub fn read_shared(fde: &Arc<B>) {} }")
        self.has(text, "impl C { pub fn read(fde: &Arc<B>) {} }")
        text = "fn f() {\n    Event::read(&a(), b);\n    C::read(b);\n}"
        self.gives(text, "fn f() { Event::read_shared(&a(), b); C::read(b); }", place=TEST)


class Buffers(Case):
    def test_a_test_s_buffer_is_never_refused(self):
        text = "fn f() -> bool {\n    let Ok(input) = BufReader::with_capacity(alloc, 1, A) else {\n        return false;\n    };\n    true\n}"
        self.has(text, "let input = BufReader::with_capacity(1, A);", place=TEST)

    def test_a_buffer_whose_refusal_is_another_is_refused(self):
        text = "fn f() -> bool {\n    let Ok(input) = BufReader::with_capacity(alloc, 1, A) else {\n        return g();\n    };\n    true\n}"
        self.assertEqual(refusal(text, TEST), "sample.rt:2: a buffer whose refusal isn't known")

    def test_a_matched_buffer_is_there(self):
        text = "fn f(alloc: Global) {\n    match BufWriter::with_capacity(alloc, 1, A) {\n        Ok(b) => g(b),\n        Err(_) => {}\n    }\n}"
        wanted = "fn f() { match Ok::<_, ()>(BufWriter::with_capacity(1, A)) { Ok(b) => g(b), Err(_) => {} } }"
        self.gives(text, wanted, place=PROGRAM)


if __name__ == "__main__":
    unittest.main()
