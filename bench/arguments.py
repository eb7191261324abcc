"""The arguments of the scripts beside it."""

import sys


def arguments(usage, known=()):
    """The arguments. A flag that isn't known ends the script: `--help` prints how it is used, any other one is refused."""
    given = sys.argv[1:]
    flags = [word for word in given if word.startswith("-") and word not in known]
    if "--help" in flags or "-h" in flags:
        print(usage.strip())
        sys.exit(0)
    if flags:
        print(f"no such flag: {' '.join(flags)}; --help says how it is used", file=sys.stderr)
        sys.exit(64)
    return given
