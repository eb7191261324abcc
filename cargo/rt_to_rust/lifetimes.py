"""Types whose lifetime the packages fix: the proved sources need it as a parameter, and a user of Rust expects none."""

import re
from typing import NamedTuple

from rt_to_rust.crates import LIBRARY
from rt_to_rust.imports import leaves
from rt_to_rust.items import after_generics, blocks, functions, signature_end

# The types, by the crate that declares each, with the parameter that is fixed there. A caller sees its one value.
FIXED = {("binlog_events", "Event"): "'d"}

LIFETIME = "'static"

# What stands for the fixed lifetime where the parameter isn't declared.
USES = (LIFETIME, "'_")


class Scope(NamedTuple):
    """An item that declares the parameter: the index of its generics, and its first and last index."""

    generics: int
    first: int
    last: int


def scopes(source, name, parameter):
    """The items that declare the parameter of the type `name`: the type, its blocks, and functions whose signature has
    the type under that parameter."""
    found = [Scope(i + 2, i, signature_end(source, i)) for i in source.places("struct", name, "<")]
    found += [Scope(b.first + 1, b.first, b.body) for b in blocks(source) if b.type_name == name]
    for function in functions(source):
        if any(function.name < index < function.body for index in source.places(name, "<", parameter, ">")):
            found.append(Scope(function.name + 1, function.first, function.body))
    for generics, first, body in found:
        if is_declared(source, generics, parameter):
            yield Scope(generics, first, source.partner.get(body, body))


def is_declared(source, generics, parameter):
    """Whether generic parameters declare this one, without bounds."""
    end = after_generics(source, generics)
    for index in range(generics, end):
        if source.is_at(index, parameter) and source.code[index - 1].text in "<,":
            if source.code[index + 1].text not in (",", ">"):
                raise source.refusal(index, f"the parameter {parameter} has bounds")
            return True
    return False


def undeclared(source, generics, parameter):
    """The change that takes a parameter out of generic parameters, and its index."""
    index = next(i for i in range(generics, after_generics(source, generics)) if source.is_at(i, parameter))
    if source.is_at(index + 1, ","):
        return index, source.span(index, index + 1)
    if source.is_at(index - 1, "<"):
        return index, source.span(index - 1, index + 1)
    return index, source.span(index - 1, index)


def bound(source, index, parameter):
    """The last index of the predicate `'d: 'a` of a where-clause that begins here, or None."""
    if not source.is_at(index, parameter, ":") or source.code[index - 1].text not in ("where", ","):
        return None
    if source.code[index + 2].kind != "lifetime" or source.code[index + 3].text not in (",", "{", ";"):
        raise source.refusal(index, f"a bound of {parameter} of a form that isn't known")
    return index + 3 if source.is_at(index + 3, ",") else index + 2


def unbound(source, index, last):
    """The change that takes out a predicate, with its `where` if no other one is left."""
    is_only = source.is_at(index - 1, "where") and source.code[last + 1].text in ("{", ";")
    return source.span(index - is_only, last)


def in_scope(source, scope, name, parameter):
    """The changes of one item: the parameter goes, and its uses are the fixed lifetime."""
    declaration, change = undeclared(source, scope.generics, parameter)
    yield change
    for index in source.places(parameter):
        if index == declaration or not scope.first <= index <= scope.last:
            continue
        if source.is_at(index - 2, name, "<", parameter, ">"):
            yield source.span(index - 1, index + 1)
        elif last := bound(source, index, parameter):
            yield unbound(source, index, last)
        elif is_argument(source, index) or source.is_at(index - 1, "&"):
            yield source.span(index, index, LIFETIME)
        else:
            raise source.refusal(index, f"{parameter} in a place that isn't known")


def is_argument(source, index):
    """Whether a lifetime is an argument of a named type, and declares nothing."""
    opening = index - 1
    while source.is_at(opening, ",") and source.code[opening - 1].kind == "lifetime":
        opening -= 2
    if not source.is_at(opening, "<") or source.code[index + 1].text not in (",", ">"):
        return False
    is_type = source.code[opening - 1].kind == "word" and source.code[opening - 1].text not in ("for", "impl")
    return is_type and source.code[opening - 2].text not in ("fn", "struct", "enum", "trait", "type")


def elsewhere(source, name, parameter, items):
    """The changes of uses of a type outside of the items that declare its parameter."""
    for index in [*source.places(name, "<"), *source.places(name, "::", "<")]:
        is_inside = any(scope.first <= index <= scope.last for scope in items)
        if is_inside and source.is_at(index + 2, parameter, ">"):
            continue
        if source.code[index + 2].text not in USES or not source.is_at(index + 3, ">"):
            raise source.refusal(index, f"`{name}` under a lifetime that isn't known")
        yield source.span(index + 1, index + 3)


def in_documentation(source, name):
    """The changes of the names of a type in documentation."""
    for token in source.tokens:
        text = re.sub(rf"\b{name}<{LIFETIME}>", name, token.text)
        if token.kind == "doc" and text != token.text:
            yield token.start, token.end, text


def fixed_parameters(place):
    """The parameters that a crate's types have in the sources alone: documentation is silent on them."""
    return {parameter for (crate, _), parameter in FIXED.items() if crate == place.module}


def check_names(source, place, crate, name):
    """Refuses a source that has another type of this name, or that gives it another name."""
    is_own = place.module == crate
    for kind in ("struct", "enum", "trait", "type", "union"):
        for index in source.places(kind, name):
            if not is_own or kind != "struct":
                raise source.refusal(index, f"another `{name}` than that of {crate}")
    for index in source.places("use"):
        for path, alias in leaves(source, index + 1):
            if path[-1] == name and alias:
                raise source.refusal(index, f"`{name}` under another name")
            if path[-1] == name and path[0] not in (*LIBRARY, "crate", "super", "self", *own_modules(source)):
                raise source.refusal(index, f"another `{name}` than that of {crate}")


def own_modules(source):
    """The modules that a source declares."""
    return [source.code[index + 1].text for index in source.places("mod")]


def with_fixed_lifetimes(source, place, used):
    """The source whose types of the table have no lifetime. Adds to `used` the rows whose type it declares."""
    changes = []
    for (crate, name), parameter in FIXED.items():
        check_names(source, place, crate, name)
        items = list(scopes(source, name, parameter)) if place.module == crate else []
        if source.places("struct", name) and place.module == crate:
            if not items:
                raise source.refusal(source.places("struct", name)[0], f"`{name}` without the parameter {parameter}")
            used.add(name)
        for scope in items:
            changes += in_scope(source, scope, name, parameter)
        changes += [*elsewhere(source, name, parameter, items), *in_documentation(source, name)]
    return source.changed(changes)
