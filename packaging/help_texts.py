"""What the help of a program says: its commands and their options, from the text of `--help`.

The man page and the completions are made from it, so that they say what the program says.
"""

import re
import subprocess
from typing import NamedTuple

OPTION = re.compile(r" +(?:-(?P<short>\w)(?:, )?)?(?:--(?P<long>[\w-]+))?(?: <(?P<value>[\w.]+)>)?(?:\.\.\.)?(?: {2,}(?P<help>.*))?")
ENTRY = re.compile(r" +(?P<name>\S+)(?: {2,}(?P<help>.*))?")


class Option(NamedTuple):
    """An option: `-q`, `--quiet`, and the name of its value, each None if there is none."""

    short: str | None
    long: str | None
    value: str | None
    help: str


class Entry(NamedTuple):
    """A command or an argument, as the help names it."""

    name: str
    help: str


class HelpText(NamedTuple):
    """The help of the program or of a command."""

    about: str
    usage: str
    entries: list[Entry]
    options: list[Option]
    rest: str


def help_of(program, *words):
    """What the program prints of itself, or of one of its commands."""
    finished = subprocess.run([program, *words, "--help"], capture_output=True, text=True, check=True)
    return parsed(finished.stdout)


def parsed(text):
    """The parts of a help text: each has a blank line before it."""
    about, usage, entries, options, rest = [], "", [], [], []
    for part in text.strip("\n").split("\n\n"):
        head, *lines = part.split("\n")
        if head.startswith("Usage: "):
            usage = head.removeprefix("Usage: ")
        elif head in ("Commands:", "Arguments:"):
            entries += [Entry(found["name"], found["help"] or "") for found in map(ENTRY.fullmatch, lines)]
        elif head == "Options:":
            options += [Option(**found.groupdict(default=None)) for found in map(OPTION.fullmatch, lines)]
        else:
            (rest if usage else about).append(part)
    return HelpText("\n".join(about), usage, entries, options, "\n\n".join(rest))


def commands_of(program):
    """The help of the program, and that of each of its commands by name."""
    whole = help_of(program)
    return whole, {entry.name: help_of(program, entry.name) for entry in whole.entries if entry.name != "help"}
