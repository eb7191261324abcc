"""Imports and paths: modules of one crate in place of crates, and Rust's names of the standard library."""

import re
from typing import NamedTuple

from rt_to_rust.crates import LIBRARY, TESTKITS, TESTS, TOOLS
from rt_to_rust.host import host_imports
from rt_to_rust.items import fields
from rt_to_rust.kinds import base
from rt_to_rust.source import segments

# Names of the toolchain's std and ports: what stands for them, None where nothing does. `crate` is the package's root,
# `LIBRARY` that of the library, `TOOLS` that of `binlog-tools`.
STAND_INS = {
    "std::alloc::AllocFailed": None,
    "std::alloc::Global": None,
    "std::marker::Model": None,
    "std::num::f32_from_bits_with_nan": None,
    "std::num::f64_from_bits_with_nan": None,
    "std::string::String": None,
    "std::simd::prelude::*": None,
    "std::process::Abort": None,
    "bstr::ByteSlice": None,
    "std::test::Fail": "crate::Fail",
    "std::alloc::AllocError": "LIBRARY::memory::AllocError",
    "std::fmt::Write": "LIBRARY::memory::TryWrite",
    "std::borrow::CowSlice": "std::borrow::Cow",
    "std::borrow::CowStr": "std::borrow::Cow",
    "std::simd::Simd": "crate::simd::Simd",
    "std::env": "TOOLS::host::env",
    "std::env::Env": "TOOLS::host::Env",
    "std::fs": "TOOLS::host::fs",
    "std::fs::File": "TOOLS::host::fs::File",
    "std::fs::OpenFile": "TOOLS::host::OpenFile",
    "std::fs::OpenOptions": "TOOLS::host::fs::OpenOptions",
    "std::fs::TryLockError": "std::fs::TryLockError",
    "std::os::unix::fs::FileExt": "std::os::unix::fs::FileExt",
    "std::os::unix::fs::MetadataExt": "std::os::unix::fs::MetadataExt",
    "std::rt::Files": "TOOLS::host::Files",
    "std::thread": "TOOLS::host::thread",
    "std::time::Clock": "TOOLS::host::Clock",
    "itoa::write_digits": "LIBRARY::digits::write_digits",
    "json::Writer": "crate::json::Writer",
    "json::is_number": "crate::json::is_number",
    "base64::engine::general_purpose::STANDARD": "crate::base64::STANDARD",
    "fast_float::parse": "crate::fast_float::parse",
    "jiff_core::civil::Date": "crate::calendar::Date",
    "bitflags::Flag": "crate::bitflags::Flag",
    "bitflags::Flags": "crate::bitflags::Flags",
    "bitflags::bitflag_items": "crate::bitflags::bitflag_items",
}

# Crates of which a module of `binlog-tools` has the names that are used.
PORTS = ("clap", "jiff")

# Names that Rust has as they are.
SAME = re.compile(
    r"(std::(cell::Cell|cmp::Ordering|collections::(BTreeMap|btree_map::Iter)|error::Error|fmt|hash::\w+|io(::\w+)?|iter::FusedIterator|marker::PhantomData|mem(::swap)?|num::NonZeroU32|process::ExitCode|str)"
    r"|std::sync::Arc|std::time::Duration"
    r"|byteorder::\w+|memchr::\w+|hex::encode_to_slice|itoa::Buffer|ryu::Buffer|uuid::Uuid|thiserror::Error|indexmap::IndexMap)"
)

# The calls of the module for memory, by the name that a file has to import.
MEMORY = {
    "TryGrow": ["try_push", "try_insert", "try_resize", "try_extend_from_slice"],
    "TryGrowText": ["try_push_str", "try_push_char"],
    "TryCollect": ["try_collect_vec"],
    "string_from": ["string_from"],
    "try_format": ["try_format"],
    "try_lossy_text": ["try_lossy_text"],
    "vec_filled": ["vec_filled"],
    "vec_from_slice": ["vec_from_slice"],
    "vec_with_capacity": ["vec_with_capacity"],
}


class Place(NamedTuple):
    """Where a source goes: the module of its crate in the package, None in a program, whose modules are the package's
    own; the path of each public name of the library, outside of it; and whether it is one of a crate of tests."""

    module: str | None
    public: dict | None
    is_test: bool

    def is_program(self):
        """Whether the source is one of a program."""
        return self.module is None

    def tools(self):
        """How the source names the root of `binlog-tools`."""
        return "binlog_tools" if self.is_test or self.is_program() else "crate"


def leaves(source, index, prefix=()):
    """The paths of the tree of imports that begins here, each as (segments, alias)."""
    path = list(prefix)
    while True:
        token = source.code[index]
        if token.text == "{":
            for first, _ in segments(source, index):
                yield from leaves(source, first, path)
            return
        path.append(token.text)
        if not source.is_at(index + 1, "::"):
            break
        index += 2
    alias = source.code[index + 2].text if source.is_at(index + 1, "as") else None
    yield path, alias


def outside_path(source, index, place, path):
    """A path of the library as another package names it."""
    if len(path) == 1:
        return "binlog"
    public = place.public.get("::".join(path[:2])) or place.public.get(path[1])
    if public is None:
        raise source.refusal(index, f"{'::'.join(path)} isn't public in the library")
    return "::".join([public, *path[2:]])


def crate_path(source, index, place, path):
    """The path of a name of one of the crates, or None for another path."""
    head = path[0]
    if head == "crate" and place.module:
        return "::".join(["crate", place.module, *path[1:]])
    if head in TESTKITS + TESTS:
        return "::".join(["crate", *path])
    if head in TOOLS:
        return "::".join([place.tools(), *path])
    if head in PORTS:
        return "::".join([place.tools(), *path])
    if head in LIBRARY:
        return outside_path(source, index, place, path) if place.public else "::".join(["crate", *path])
    return None


def path_for(source, index, place, path):
    """The path that stands for an imported one; None where nothing does."""
    text = "::".join(path)
    if path[-1] == "laws":
        return None
    if text in STAND_INS:
        found = STAND_INS[text]
        return found and found.replace("LIBRARY", library_path(place)).replace("TOOLS", place.tools())
    own = crate_path(source, index, place, path)
    if own or SAME.fullmatch(text) or path[0] in ("super", "self", "crate") or is_local(source, path[0]):
        return own or text
    raise source.refusal(index, f"an import that isn't known: {text}")


def is_local(source, name):
    """Whether a path's first name is a module of the source, or imported by it."""
    if source.places("mod", name, ";"):
        return True
    imported = (path for index in source.places("use") for path, _ in leaves(source, index + 1))
    return any(path[-1] == name and len(path) > 1 for path in imported)


def library_path(place):
    """How a source names the root of the library."""
    return "binlog" if place.public else "crate"


def imports(source, place):
    """Each `use`, with the paths of the package. What a crate of the library passes on of another one goes: the
    library's root does that."""
    for index in source.places("use"):
        start = index - 1 if source.is_at(index - 1, "pub") else index
        end = index
        while source.code[end].text != ";":
            end += 1
        paths = {}
        is_own = not place.public and start < index
        for path, alias in leaves(source, index + 1):
            if is_own and path[0] in LIBRARY:
                continue
            if found := path_for(source, index, place, path):
                paths[found + (f" as {alias}" if alias else "")] = None
        public = "pub " if start < index else ""
        yield source.span(start, end, " ".join(f"{public}use {text};" for text in merged(paths)))


def merged(paths):
    """Imports of one module as one import, in the order of their first names."""
    modules = {}
    for path in paths:
        module, _, name = path.rpartition("::")
        modules.setdefault(module, []).append(name)
    for module, names in modules.items():
        if not module:
            yield from names
        elif len(names) == 1:
            yield f"{module}::{names[0]}"
        else:
            yield f"{module}::{{{', '.join(names)}}}"


def paths(source, place):
    """Paths of the crates outside of imports."""
    for index, token in enumerate(source.code):
        if token.text not in LIBRARY + TOOLS + ["crate", *PORTS] or not source.is_at(index + 1, "::"):
            continue
        if source.is_at(index - 1, "::") or in_import(source, index):
            continue
        path = source.texts(index, index + 3)[::2]
        if found := crate_path(source, index, place, path):
            yield source.span(index, index + 2, found)


def in_import(source, index):
    while source.code[index].text not in (";", "}", "use"):
        index -= 1
        if index < 0:
            return False
    return source.code[index].text == "use"


# The crate whose root has the names of all others, which are elsewhere in the package.
FACADE = "binlog_file"


def linked(source, place, public, path):
    """The path of a name in documentation, or None for another path."""
    if path[0] == "crate" and place.module == FACADE and path[1] in public:
        return "::".join(["crate", *public[path[1]].split("::")[1:], *path[2:]])
    return crate_path(source, 0, place, path)


def links(source, place, public):
    """Paths of the crates in documentation."""
    head = re.compile(rf"(?<=[`\[(])({'|'.join(LIBRARY + TOOLS)}|crate)((?:::\w+)+)")
    for token in source.tokens:
        if token.kind != "doc":
            continue
        text = head.sub(
            lambda found: linked(source, place, public, found.group().split("::")) or found.group(), token.text
        )
        if text != token.text:
            yield token.start, token.end, text


def of_memory(source, place):
    """Imports of what a source calls of the module for memory."""
    words = {token.text for token in source.code if token.kind == "word"}
    names = [name for name, calls in MEMORY.items() if words & set(calls)]
    has_cow = any(base(texts) == "Cow" for texts in fields(source).values())
    if has_cow and "try_into_owned" in words:
        names.append("TryIntoOwned")
    module = f"{library_path(place)}::memory"
    imported = [f"{module}::{name}" for name in names]
    if place.is_test and "as_str" in words:
        imported.append("crate::AsStr")
    if place.public and not place.is_test:
        imported += host_imports(source, f"{place.tools()}::host")
    if imported:
        first = next((i for i in source.places("use") if not source.is_at(i - 1, "pub")), None)
        if first is None:
            first = next(iter(source.places("use")), 0)
        offset = source.code[first].start
        yield offset, offset, "".join(f"use {text}; " for text in merged(imported))


# Names that the toolchain asks a source to import and Rust doesn't, or whose calls went: those that are in no code go.
OFTEN_UNUSED = ("AllocError", "Cow", "Flags", "Hasher", "Retrying")


def unused(source):
    """Imports of such names that no code has."""
    for name in OFTEN_UNUSED:
        found = source.indices.get(name, [])
        if len(found) == 1 and in_import(source, found[0]):
            yield without_leaf(source, found[0])


def without_leaf(source, index):
    """The change that takes one name out of an import."""
    if source.code[index - 1].text == "::":
        first = index
        while source.code[first].text != "use":
            first -= 1
        return source.span(first, index + 1)
    if source.is_at(index + 1, ","):
        return source.span(index, index + 1)
    return source.span(index - 1, index)


def placed(source, place, public):
    """The source with the paths of its package, of which `public` are those of the library's public names."""
    return source.changed([*imports(source, place), *paths(source, place), *links(source, place, public)])


def with_memory(source, place):
    """The source with the imports that its calls for memory and of the machine need."""
    source = source.changed(unused(source))
    return source.changed(of_memory(source, place))
