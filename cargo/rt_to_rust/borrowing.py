"""Borrowed or owned bytes and texts: `Cow`, and whatever makes one as a parameter."""

from rt_to_rust.items import fields, function_at, functions
from rt_to_rust.kinds import base, local_type
from rt_to_rust.source import OPENING, segments

KINDS = {"CowSlice": "[u8]", "CowStr": "str"}


def cow_types(source):
    """`CowSlice<'a, u8>` and `CowStr<'a, Global>`."""
    for kind, borrowed in KINDS.items():
        for index in source.places(kind, "<"):
            if not source.is_at(index + 3, ",") or not source.is_at(index + 5, ">"):
                raise source.refusal(index, f"a {kind} of a form that isn't known")
            lifetime = source.code[index + 2].text
            yield source.span(index, index + 5, f"Cow<{lifetime}, {borrowed}>")


def is_taken_as_any(source, index):
    """Whether a value that is passed here may be anything that makes a `Cow`: an argument of `new` or `with_..`."""
    place = index - 1
    if source.code[place].text not in ("(", ","):
        return False
    while source.code[place].text not in OPENING:
        place = source.partner.get(place, place) - 1
    name = source.code[place - 1].text
    return source.code[place].text == "(" and (name == "new" or name.startswith("with_"))


def cow_values(source):
    """`CowSlice::Borrowed(..)`; what is passed on needs no such name."""
    for kind in KINDS:
        for index in source.places(kind, "::"):
            close = source.partner.get(index + 3)
            if close and is_taken_as_any(source, index) and source.code[close + 1].text in (")", ","):
                yield source.span(index, index + 3)
                yield source.span(close, close)
            else:
                yield source.span(index, index, "Cow")


def slices(source):
    """`as_slice` and `as_str` of a `Cow`."""
    for call in ("as_slice", "as_str"):
        for index in source.places(".", call, "(", ")"):
            if is_cow(source, index):
                yield source.span(index + 1, index + 1, "as_ref")


def is_cow(source, dot):
    """Whether a field or parameter of a `Cow` stands in front of a `.`."""
    name = source.code[dot - 1].text
    if source.code[dot - 1].kind != "word":
        return False
    if source.code[dot - 2].text == ".":
        return base(fields(source).get(name, [])) in KINDS
    function = function_at(source, dot)
    if function is None:
        return False
    stated = local_type(source, function, name, dot)
    return base(stated) in KINDS if stated else name in cow_parameters(source, function)


def cow_parameters(source, function):
    """The names of a function's parameters that are a `Cow`."""
    for first, last in segments(source, function.parameters, of_types=True):
        texts = source.texts(first, last + 1)
        if ":" in texts and texts[texts.index(":") + 1] in KINDS:
            yield texts[texts.index(":") - 1]


def is_passed_on(source, index):
    """Whether a name is a whole argument of a call that takes anything that makes a `Cow`."""
    return source.code[index + 1].text in (")", ",") and is_taken_as_any(source, index)


def parameters(source):
    """Parameters of public functions: anything that makes a `Cow`."""
    for function in functions(source):
        body = function.body
        if not source.is_at(function.first, "pub") or not source.is_at(body, "{"):
            continue
        for first, last in segments(source, function.parameters, of_types=True):
            texts = source.texts(first, last + 1)
            colon = texts.index(":") if ":" in texts else None
            if colon is None or texts[colon + 1] not in KINDS:
                continue
            name, lifetime = texts[colon - 1], texts[colon + 3]
            cow = f"Cow<{lifetime}, {KINDS[texts[colon + 1]]}>"
            yield source.span(first + colon + 1, last, f"impl Into<{cow}>")
            uses = [at for at in source.places(name) if body < at < source.partner[body] and source.code[at - 1].text != "."]
            if not all(is_passed_on(source, at) for at in uses):
                offset = source.code[body].end
                yield offset, offset, f" let {name}: {cow} = {name}.into();"


def borrowed(source):
    """The source with `Cow`."""
    source = source.changed(slices(source))
    source = source.changed(parameters(source))
    source = source.changed(cow_values(source))
    return source.changed(cow_types(source))
