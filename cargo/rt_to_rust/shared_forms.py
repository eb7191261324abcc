"""Calls whose proved form takes a shared owner where a user of Rust expects a plain reference. They have another name,
and a form that is written by hand has theirs."""

from rt_to_rust.items import full_name, functions

# The proved forms, and their names in the packages.
SHARED_FORMS = {"Event::read": "read_shared"}


def shared_forms(source, used):
    """The changes of the names of proved forms, and of calls of them. Adds to `used` those that it found."""
    for function in functions(source):
        name = full_name(source, function)
        if name in SHARED_FORMS and source.is_at(function.first, "pub", "fn"):
            used.add(name)
            yield source.span(function.name, function.name, SHARED_FORMS[name])
    for name, shared in SHARED_FORMS.items():
        type_name, call = name.split("::")
        for index in source.places(type_name, "::", call, "("):
            yield source.span(index + 2, index + 2, shared)
