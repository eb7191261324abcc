#!/usr/bin/env python3
"""Prints the man page of `binlog`, made from its help: man_page.py PROGRAM."""

import subprocess
import sys

from help_texts import commands_of


def escaped(text):
    """The text as troff prints it, without its own meaning of backslashes, hyphens and dots."""
    text = text.replace("\\", "\\e").replace("-", "\\-")
    return "\n".join("\\&" + line if line.startswith((".", "'")) else line for line in text.split("\n"))


def bold(text):
    return f"\\fB{escaped(text)}\\fR"


def italic(text):
    return f"\\fI{escaped(text)}\\fR"


def option(found):
    """An option and what it does."""
    names = [f"-{found.short}"] * (found.short is not None) + [f"--{found.long}"] * (found.long is not None)
    value = "" if found.value is None else " " + italic(found.value)
    return f".TP\n{', '.join(map(bold, names))}{value}\n{escaped(found.help)}"


def entry(found):
    """An argument or a command, and what it is."""
    return f".TP\n{bold(found.name)}\n{escaped(found.help)}"


def verbatim(text):
    """Lines that stay as they are."""
    return f".PP\n.nf\n{escaped(text)}\n.fi"


def command(name, text):
    """The section of a command."""
    parts = [f".SS {name}", escaped(text.about), f".PP\n{bold(text.usage)}"]
    parts += map(entry, text.entries)
    parts += map(option, text.options)
    return "\n".join(parts + [verbatim(text.rest)])


def page(program):
    """The whole page."""
    version = subprocess.run([program, "--version"], capture_output=True, text=True, check=True).stdout.strip()
    whole, commands = commands_of(program)
    parts = [f'.TH BINLOG 1 "" "{escaped(version)}"', f".SH NAME\nbinlog \\- {escaped(whole.about)}"]
    parts += [f".SH SYNOPSIS\n{bold(whole.usage)}", ".SH COMMANDS", *map(entry, whole.entries)]
    parts += [".SH OPTIONS", *map(option, whole.options), f".SH NOTES\n{verbatim(whole.rest)}", ".SH EACH COMMAND"]
    parts += [command(name, text) for name, text in commands.items()]
    return "\n".join(parts) + "\n"


if __name__ == "__main__":
    print(page(sys.argv[1]), end="")
