"""The prover, called over the libraries that `rt ci` left in crates/*/out/rlib, in a form that other commands of `rt` don't take:
these would prove them all once more.
"""

import os
import re
import subprocess
from pathlib import Path

ROW = re.compile(r"(?P<name>\w+)(?P<kind>[^:]*):(?P<uses>[^#]*)")


class NotLeft(Exception):
    """Why the libraries below a crate aren't those that `rt ci` left."""


def rows_of_crates(repository):
    """The rows of crates.txt, by the names of the crates."""
    rows = map(ROW.match, (repository / "crates.txt").read_text().splitlines())
    return {row["name"]: row for row in rows if row}


def below(name, rows):
    """The repository's crates that a crate stands on, lowest first."""
    found = {}
    for used in rows[name]["uses"].split():
        if used in rows:
            found |= dict.fromkeys([*below(used, rows), used])
    return list(found)


def library_of(repository, name):
    """The library that `rt ci` left of a crate. One that another command built has a stamp, and may be of other sources."""
    library = repository / f"crates/{name}/out/rlib/{name}.rlib"
    if not library.is_dir():
        raise NotLeft(f"rt ci has left no library of {name}")
    if (library.parent / "stamp").exists():
        raise NotLeft(f"the library of {name} is not that of rt ci")
    return library


def toolchain():
    """The folder of the toolchain that `rt` is of."""
    try:
        page = subprocess.run(["rt", "doc"], stdout=subprocess.PIPE, text=True, check=True).stdout
    except OSError as error:
        raise NotLeft(f"rt: {error.strerror}") from error
    return Path(page.strip()).parent


def command(repository, name, verb):
    """The words of a command that checks or builds a crate, to be run in its folder. Raises NotLeft."""
    rows = rows_of_crates(repository)
    libraries = {crate: library_of(repository, crate) for crate in below(name, rows)}
    kit = toolchain()
    root = "src/main.rt" if (repository / f"crates/{name}/src/main.rt").exists() else "src/lib.rt"
    words = [kit / "bin/rattle", verb, "--crate-name", name, root]
    for used in ["std", *rows[name]["uses"].split()]:
        words += ["--extern", f"{used}={libraries.get(used, kit / f'rlibs/{used}.rlib')}"]
    for folder in [kit / "rlibs", *(library.parent for library in libraries.values())]:
        words += ["-L", f"dependency={folder}"]
    words += ["--antt-project", kit / "rattle/logic/antt-project.json", "--logic-built", kit / "logic_built"]
    words += ["--jobs", str(min(os.cpu_count() or 1, 2)), "--links", f"{name}="]
    return words + (["--crate-type", "staticlib"] if "staticlib" in rows[name]["kind"] else [])
