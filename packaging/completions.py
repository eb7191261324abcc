#!/usr/bin/env python3
"""Prints the completions of `binlog` for bash, made from its help: completions.py PROGRAM."""

import sys

from help_texts import commands_of

# The values of options that are files. Others are numbers, times and texts, of which the help doesn't say which there are.
FILES = ("COLUMNS", "LOG", "OUT", "STATE")

SCRIPT = """\
# Completions of binlog for bash, made from its help.
_binlog() {
    local word=${COMP_WORDS[COMP_CWORD]} before=${COMP_WORDS[COMP_CWORD - 1]} command= words= index
    for ((index = 1; index < COMP_CWORD; index++)); do
        case ${COMP_WORDS[index]} in
            %(commands)s) command=${COMP_WORDS[index]} && break ;;
        esac
    done
    case $command in
%(cases)s
        *) words='%(words)s' ;;
    esac
    COMPREPLY=()
    case $before in
        %(values)s) return ;;
    esac
    if [[ -z $command || $word == -* ]]; then
        mapfile -t COMPREPLY < <(compgen -W "$words" -- "$word")
    else
        mapfile -t COMPREPLY < <(compgen -f -- "$word")
    fi
}
complete -o filenames -F _binlog binlog
"""


def names(option):
    """The words that name an option."""
    return [f"-{option.short}"] * (option.short is not None) + [f"--{option.long}"] * (option.long is not None)


def script(program):
    """The completions: the commands, the options of each, and files."""
    whole, commands = commands_of(program)
    cases, values = [], set()
    for name, text in commands.items():
        words = [word for option in text.options for word in names(option)]
        cases.append(f"        {name}) words='{' '.join(words)}' ;;")
        values |= {word for option in text.options if option.value not in (None, *FILES) for word in names(option)}
    words = [*commands, *(word for option in whole.options for word in names(option))]
    parts = {"commands": " | ".join(commands), "cases": "\n".join(cases), "words": " ".join(words)}
    return SCRIPT % (parts | {"values": " | ".join(sorted(values))})


if __name__ == "__main__":
    print(script(sys.argv[1]), end="")
