"""Readers and writers are parameters by value, as in Rust's standard library: a caller passes them so, or borrowed."""

from rt_to_rust.items import after_generics, block_at, function_at, functions
from rt_to_rust.source import segments

BOUNDS = ("BufRead", "Write")


def devices(source, function):
    """The names of a function's generic parameters that are a reader or a writer."""
    start = function.name + 1
    for index in range(start, after_generics(source, start) - 1):
        if source.is_at(index + 1, ":") and source.code[index + 2].text in BOUNDS and source.code[index + 3].text in (",", ">"):
            yield source.code[index].text


def is_public(source, function, public):
    """Whether users of the packages may call a function."""
    if not source.is_at(function.first, "pub", "fn"):
        return False
    block = block_at(source, function.name)
    return public is None or (block.type_name if block else source.code[function.name].text) in public


def by_value(source, public):
    """The source whose public functions take readers and writers by value; `public` has the names that are public, or
    all are if it is None."""
    changes = []
    for function in functions(source):
        if not is_public(source, function, public):
            continue
        kinds = list(devices(source, function))
        for first, last in segments(source, function.parameters, of_types=True):
            name = source.code[first].text
            if last - first == 4 and source.is_at(first + 1, ":", "&", "mut") and source.code[last].text in kinds:
                changes.append(source.span(first, last, f"mut {name}: {source.code[last].text}"))
                offset = source.code[function.body].end
                changes.append((offset, offset, f" let {name} = &mut {name};"))
    return source.changed(changes)


def borrowed_parameters(source, function):
    """The names of a function's parameters that are mutable references."""
    for first, _ in segments(source, function.parameters, of_types=True):
        if source.is_at(first + 1, ":", "&", "mut"):
            yield source.code[first].text


def lent_on(source):
    """The source in which a borrowed reader or writer that is passed to `read` or `write` is the caller's again behind the
    call."""
    changes = []
    for call in ("read", "write"):
        for index in source.places(call, "("):
            function = function_at(source, index)
            if function is None or source.code[index - 1].text not in (".", "::"):
                continue
            names = list(borrowed_parameters(source, function))
            for first, last in segments(source, index + 1):
                if first == last and source.code[first].text in names:
                    changes.append(source.span(first, last, f"&mut *{source.code[first].text}"))
    return source.changed(changes)
