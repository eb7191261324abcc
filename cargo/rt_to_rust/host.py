"""The machine that the program takes as `rt`: it stays a value, whose type and traits are in the module `host`, which is
written by hand."""

MACROS = ("eprint", "eprintln")

# The traits of the machine that the toolchain's prelude has.
PRELUDE = ("Eprint", "Input", "Print")

# The type of the machine in the signature of `main`.
MACHINE = ["fn", "main", "(", "rt", ":", "HostRuntime", ")"]


# The constants that say how the program was made, the word of the proved program, and that of the packages.
VERSIONS = ("VERSION",)
PROVED = "(proved)"
TESTED = "(made from the proved sources, compiled by rustc, tested)"


def versions(source, used):
    """The constants that say how the program was made. Adds to `used` those that it found."""
    for name in VERSIONS:
        for index in source.places("const", name, ":", "&", "str", "="):
            text = source.code[index + 6].text
            if PROVED not in text:
                raise source.refusal(index, f"`{name}` doesn't say `{PROVED}`")
            used.add(name)
            yield source.span(index + 6, index + 6, text.replace(PROVED, TESTED))


def messages(source):
    """`eprintln!(rt; ..)`: a call of the machine."""
    for macro in MACROS:
        for index in source.places(macro, "!", "("):
            end = index + 3
            while source.code[end].text != ";":
                end += 1
            close = source.partner[index + 2]
            yield source.span(index, end, f"{source.between(index + 3, end - 1)}.{macro}(format_args!(")
            yield source.span(close, close, "))")


def copies(source):
    """`(*error)`: an error isn't `Copy` in the packages."""
    for index in source.places("(", "*", "error", ")"):
        yield source.span(index + 1, index + 2, "error.copied()")


def allocating(source):
    """The bound of a machine that allocates: no call takes an allocator."""
    for index in source.places("AllocGlobal"):
        if source.is_at(index - 1, "+"):
            yield source.span(index - 1, index)
        elif source.is_at(index - 1, ":") and source.is_at(index + 1, "+"):
            yield source.span(index, index + 1)
        elif source.is_at(index - 1, ":"):
            yield source.span(index - 1, index)
        else:
            raise source.refusal(index, "`AllocGlobal` in a place that isn't known")


def mains(source):
    """The program's `main`: it makes the machine."""
    for index in source.places(*MACHINE):
        body = source.places("{")
        opening = next(place for place in body if place > index)
        yield source.span(index + 3, index + 5)
        offset = source.code[opening].end
        yield offset, offset, " let rt = Host;"


def output(source):
    """`io::writer(rt)`: standard output."""
    for index in source.places("io", "::", "writer", "(", "rt", ")"):
        yield source.span(index, index + 5, "io::stdout().lock()")


def on_host(source, used):
    """The source of a program or a part of one, which takes the machine by reference. Adds to `used` the constants of the
    table that it found."""
    changes = [*versions(source, used), *messages(source), *copies(source), *allocating(source), *mains(source), *output(source)]
    return source.changed(changes)


def host_imports(source, module):
    """The names of the module `host` that a source has and the toolchain's prelude brings in."""
    names = [name for name in (*PRELUDE, "Host") if source.places(name)]
    if not source.places("Eprint") and any(source.places(".", macro, "(") for macro in MACROS):
        names.append("Eprint")
    if source.places(".", "copied", "("):
        names.append("Copied")
    return [f"{module}::{name}" for name in names]
