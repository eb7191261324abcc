"""The items of a source that other passes ask for: functions, blocks of implementations, fields."""

from functools import lru_cache
from typing import NamedTuple

from rt_to_rust.source import segments

# Words that stand in front of `fn`.
QUALIFIERS = {"pub", "const", "unsafe", "extern"}


class Function(NamedTuple):
    """Indices of the code: the first word, the name, the parameters' bracket, and the body's brace or the `;`."""

    first: int
    name: int
    parameters: int
    body: int


class Block(NamedTuple):
    """A block of an implementation: its first word, the type's name, the trait's or None, and the body's brace."""

    first: int
    type_name: str
    trait: str | None
    body: int


def after_generics(source, index):
    """The index behind the generic parameters that begin here, if any."""
    if not source.is_at(index, "<"):
        return index
    depth = 0
    while True:
        depth += {"<": 1, ">": -1}.get(source.code[index].text, 0)
        index += 1
        if depth == 0:
            return index
        if index == len(source.code):
            raise source.refusal(index, "generic parameters aren't closed")


def signature_end(source, index):
    """The index of the `{` or `;` that ends a signature or a head."""
    while source.code[index].text not in ("{", ";"):
        index = source.partner[index] if source.code[index].text in "([" else index
        index += 1
        if index >= len(source.code):
            raise source.refusal(index, "a signature isn't ended")
    return index


@lru_cache(maxsize=4)
def functions(source):
    """All functions of a source, of traits and implementations among them."""
    found = []
    for index, token in enumerate(source.code):
        if token.text != "fn" or source.code[index + 1].kind != "word":
            continue
        parameters = after_generics(source, index + 2)
        if source.code[parameters].text != "(":
            raise source.refusal(index, "a function without parameters")
        first = index
        while source.code[first - 1].text in QUALIFIERS or source.is_at(first - 4, "pub", "("):
            first -= 1 if source.code[first - 1].text in QUALIFIERS else 4
        end = signature_end(source, source.partner[parameters])
        found.append(Function(first, index + 1, parameters, end))
    return found


def path_name(source, index):
    """The last name of the path that begins here, and the index behind its generics."""
    while source.code[index].text in ("&", "mut", "dyn") or source.code[index].kind == "lifetime":
        index += 1
    while source.is_at(index + 1, "::"):
        index += 2
    return source.code[index].text, after_generics(source, index + 1)


@lru_cache(maxsize=4)
def blocks(source):
    """The blocks of implementations."""
    found = []
    for index, token in enumerate(source.code):
        if token.text != "impl" or (index > 0 and source.code[index - 1].text not in ("}", ";", "]")):
            continue
        name, behind = path_name(source, after_generics(source, index + 1))
        trait = None
        if source.is_at(behind, "for"):
            trait = name
            name, behind = path_name(source, behind + 1)
        found.append(Block(index, name, trait, signature_end(source, behind)))
    return found


def block_at(source, index):
    """The block of an implementation that a place of the code is in, or None."""
    for block in blocks(source):
        if block.body < index < source.partner.get(block.body, 0):
            return block
    return None


def trait_at(source, index):
    """The name of the trait whose declaration a place of the code is in, or None."""
    for word in source.places("trait"):
        body = signature_end(source, word)
        if body < index < source.partner.get(body, 0):
            return source.code[word + 1].text
    return None


def full_name(source, function):
    """A function's name, behind that of the type whose method it is."""
    block = block_at(source, function.name)
    name = source.code[function.name].text
    return f"{block.type_name}::{name}" if block else name


def head_of(source, block):
    """`impl` with the generic parameters of a block, and the type that it is for."""
    start = source.code[block.first].start
    cut = source.code[after_generics(source, block.first + 1) - 1].end
    rest = source.text[cut : source.code[block.body].start].strip()
    return source.text[start:cut], rest.partition(" for ")[2] if block.trait else rest


def function_at(source, index):
    """The innermost function that a place of the code is in, or None."""
    found = None
    for function in functions(source):
        if source.code[function.body].text == "{" and function.body < index < source.partner[function.body]:
            found = function
    return found


@lru_cache(maxsize=4)
def fields(source):
    """The types of the named fields of all structs of a source, as lists of texts by the field's name."""
    found = {}
    for index in source.places("struct"):
        body = after_generics(source, index + 2)
        while source.code[body].text not in ("{", ";", "("):
            body += 1
        if source.code[body].text != "{":
            continue
        for first, last in segments(source, body, of_types=True):
            colon = next((at for at in range(first, last) if source.code[at].text == ":"), None)
            if colon is None:
                raise source.refusal(first, "a field without a type")
            found[source.code[colon - 1].text] = source.texts(colon + 1, last + 1)
    return found
