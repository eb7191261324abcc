"""What a proved function asks of its callers. Where nothing proves it any more, a public function that asks something
is the crate's own, or looks itself."""

from rt_to_rust.items import full_name, functions, trait_at

# Public functions that ask for something and stay public: what they assert, or None where any argument is safe and has
# a right answer.
CHECKS = {
    # It is `parse`, which looks itself.
    "ParseBuf::parse_unchecked": None,
    "BinlogEventHeader::from_bytes": "BinlogEventHeader::LEN <= bytes.len()",
    "GnoSet::insert": "0 < start && start < end && end <= 1 << 63",
    "GnoSet::contains_all": "start < end",
    "GtidTracker::insert": "0 < start && start < end && end <= 1 << 63",
}

# Methods of public traits that ask for something, and why a caller needs no check. Other traits with such a method are
# the crate's own (`Put`): nobody else implements or calls them.
OF_TRAITS = {
    "IntRepr::put": "asks for room alone, and vectors grow",
    "WritableBytes::put": "asks for room alone, and vectors grow",
    "Verification::verify": "only `Unverified` can be made by a caller, and it looks at nothing",
}

# The module of the library that its documentation hides: `binlog-tools` alone calls what is in it, and that was proved to give
# what is asked.
HIDDEN = "binlog::json_lines::"

# Enumerations of the library that may get more variants.
NON_EXHAUSTIVE = ["Error"]

# What says that a closure can be called, its own contract or by a verification: any closure of Rust can.
CAN_BE_CALLED = ("IsAlwaysCallable", "is_ready")


def asks(source, function):
    """Whether a function asks its callers for more than a closure that can be called."""
    clauses = source.code[function.parameters : function.body]
    return any(
        clause.kind == "clause"
        and clause.text.startswith("requires")
        and not any(word in clause.text for word in CAN_BE_CALLED)
        for clause in clauses
    )


def of_trait(source, function, trait, public, used):
    """Refuses a method of a public trait that asks for something, unless the table has it."""
    name = f"{trait}::{source.code[function.name].text}"
    if name in OF_TRAITS:
        used.add(name)
    elif trait in public:
        raise source.refusal(function.name, f"`{name}` is of a public trait and asks its callers for something")


def guarded(source, public, used):
    """The source in which no public method asks for anything that nobody looks at. Functions of a module are the
    crate's own unless they are among the `public` names. Adds to `used` the rows of the table that it used."""
    changes = []
    for function in functions(source):
        is_public = source.is_at(function.first, "pub") and not source.is_at(function.first + 1, "(")
        if not asks(source, function):
            continue
        if trait := trait_at(source, function.name):
            of_trait(source, function, trait, public, used)
        if not is_public:
            continue
        name = full_name(source, function)
        if public.get(name.split("::")[0], "").startswith(HIDDEN):
            continue
        if name not in CHECKS:
            if name in public:
                raise source.refusal(function.name, f"`{name}` is public and asks its callers for something")
            if "::" in name:
                changes.append(source.span(function.first, function.first, "pub(crate)"))
            continue
        used.add(name)
        if CHECKS[name]:
            brace = source.code[function.body].end
            changes.append((brace, brace, f" assert!({CHECKS[name]});"))
    return source.changed(changes)


def open_enums(source):
    """The source in which a match on an enumeration that may grow has to have a last arm."""
    changes = []
    for name in NON_EXHAUSTIVE:
        for index in source.places("pub", "enum", name, "{"):
            start = source.code[index].start
            changes.append((start, start, "#[non_exhaustive] "))
    return source.changed(changes)


def with_panics(source):
    """The source that states what its public functions assert."""
    changes = []
    for function in functions(source):
        check = CHECKS.get(full_name(source, function))
        if check:
            start = source.code[function.first].start
            changes.append((start, start, f"///\n/// # Panics\n///\n/// Unless `{check}`.\n"))
    return source.changed(changes)
