"""Tests of tokens, brackets and lines."""

import unittest

from rt_to_rust.items import blocks, fields, functions
from rt_to_rust.source import segments
from tests.samples import refusal, source


class Tokens(unittest.TestCase):
    def test_literals_are_whole(self):
        kinds = [(t.kind, t.text) for t in source(r"""'a '\'' b"x\"{" 0xff 1..2 "//" """).code]
        wanted = [("lifetime", "'a"), ("char", r"'\''"), ("string", r'b"x\"{"'), ("number", "0xff")]
        wanted += [("number", "1"), ("sign", ".."), ("number", "2"), ("string", '"//"')]
        self.assertEqual(kinds, wanted)

    def test_a_clause_is_one_token(self):
        kinds = [t.kind for t in source("fn f()\n    ensures same { λ x. {x} }\n{}").code]
        self.assertEqual(kinds, ["word", "word", "sign", "sign", "clause", "sign", "sign"])

    def test_a_ghost_item_is_one_token(self):
        kinds = [t.kind for t in source("ghost use Rattle.{◌≡◌, a};\nghost b = { λ _. ⊤ };").code]
        self.assertEqual(kinds, ["ghost", "ghost"])

    def test_a_proof_in_code_is_refused_with_its_line(self):
        self.assertEqual(refusal("\n\nfn f() { a ≡ b }"), "sample.rt:3: not a token of Rust: '≡ b }'")

    def test_a_bracket_without_a_partner_is_refused(self):
        self.assertEqual(refusal("fn f() {\n    (\n}"), "sample.rt:3: } closes nothing")

    def test_lines_keep_their_numbers(self):
        text = "ghost use Rattle.a;\n\nfn f()\n    ensures { a }\n{\n    alloc();\n}"
        self.assertEqual(refusal(text), "sample.rt:6: `alloc` in a place that isn't known")

    def test_parts_between_commas(self):
        sample = source("f(a, g(b, c), d::<e, f>,)")
        parts = [sample.texts(first, last + 1) for first, last in segments(sample, 1, of_types=True)]
        self.assertEqual(["".join(part) for part in parts], ["a", "g(b,c)", "d::<e,f>"])


class Items(unittest.TestCase):
    def test_functions_have_their_places(self):
        sample = source("pub(crate) fn f<'a>(x: &'a [u8; 2]) -> u8\n    ensures { a }\n{ 1 }\nfn g();")
        found = [(f.first, sample.code[f.name].text, sample.code[f.body].text) for f in functions(sample)]
        self.assertEqual(found, [(0, "f", "{"), (26, "g", ";")])

    def test_blocks_have_their_types(self):
        found = blocks(source("impl<'a, T: A<B>> C<'a> for d::E<'a, T> {}\nimpl F {}"))
        self.assertEqual([(b.type_name, b.trait) for b in found], [("E", "C"), ("F", None)])

    def test_fields_have_their_types(self):
        found = fields(source("struct A<'a> { pub b: Vec<u8>, c: Cow<'a, [u8]> }\nstruct D(u8);"))
        self.assertEqual({name: "".join(texts) for name, texts in found.items()}, {"b": "Vec<u8>", "c": "Cow<'a,[u8]>"})


if __name__ == "__main__":
    unittest.main()
