"""Small functions are `#[inline]`: the compiler doesn't take a function of another crate apart otherwise, unless the whole
program is compiled as one. The toolchain compiles a program so."""

from rt_to_rust.items import full_name, functions

# A body of as many tokens is small.
SMALL = 40

# Functions that are calls in the sources, and cost less inlined where Rust's compiler makes the program. What the sources
# say of it is left out of the documentation (`docs.OTHERWISE`).
INLINED = ["Description::get"]

NEVER = ["#", "[", "inline", "(", "never", ")", "]"]


def attributes(source, index):
    """The words of the attributes in front of an item."""
    while source.is_at(index - 1, "]"):
        opening = source.partner[index - 1]
        yield from source.texts(opening, index)
        index = opening - 1


def calls_taken_back(source, used):
    """The source in which the functions of `INLINED` aren't kept as calls. Adds to `used` those that it found."""
    changes = []
    for function in functions(source):
        name = full_name(source, function)
        start = function.first - len(NEVER)
        if name in INLINED and source.is_at(start, *NEVER):
            used.add(name)
            changes.append(source.span(start, function.first - 1))
    return source.changed(changes)


def with_inlined(source, used):
    """The source with small functions inlined. Adds to `used` the rows of the table that it used."""
    source = calls_taken_back(source, used)
    changes = []
    for function in functions(source):
        if not source.is_at(function.body, "{"):
            continue
        length = source.partner[function.body] - function.body - 1
        if 0 < length <= SMALL and not {"inline", "test", "cold"} & set(attributes(source, function.first)):
            start = source.code[function.first].start
            changes.append((start, start, "#[inline] "))
    return source.changed(changes)
