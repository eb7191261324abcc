"""The public names of the library, from its root."""

from rt_to_rust.imports import leaves


def modules(source):
    """Each module of the root, as its name and the first and last index of its body."""
    for index in source.places("mod"):
        if source.is_at(index - 1, "pub") and source.is_at(index + 2, "{"):
            yield source.code[index + 1].text, index + 2, source.partner[index + 2]


def public_names(source):
    """The path of each name that the root passes on, `binlog::consts::EventType`: by the name, and by its crate and the name,
    since two crates may have one name."""
    found = {}
    bodies = list(modules(source))
    for index in source.places("pub", "use"):
        module = next((name for name, first, last in bodies if first < index < last), None)
        for path, _ in leaves(source, index + 2):
            name = path[-1]
            public = "::".join(["binlog", *([module] if module else []), name])
            found.setdefault(name, public)
            found.setdefault("::".join(path[-2:]), public)
    return found
