#!/usr/bin/env python3
"""Tries the wrong bodies in audit/, each of which the prover must refuse.

Usage: wrong_bodies.py [CRATE..]

Those of all crates if none is named. In a copy of the repository the crates and those below them are proved first, or taken from
what `rt ci` proved on this machine. Then a crate's edits of different functions are tried together: of a copy with all of them
these functions alone are checked. An edit is refused where something is wrong in a function that it changes, and not only in what
that function calls. One that isn't told so is tried by itself, and one that is proved so by a check of the whole crate. A line
for each edit says what the check said; where a proof names what the edit takes away, that says little of the contract. The last
line is `N passed, M failed`; the exit status is 1 if an edit isn't refused, or can't be tried.
"""

import re
import shutil
import subprocess
import sys
import tempfile
from collections import namedtuple
from pathlib import Path

import prover
import results
from programs import REPOSITORY

AUDIT = REPOSITORY / "audit"

# The first line of a function, and those of an `impl` and of a trait that hold functions.
FUNCTION = re.compile(r"(?P<indent> *)(?:pub(?:\([a-z ]+\))? )?(?:const )?(?:unsafe )?fn (?P<name>\w+)")
TYPE = re.compile(r"impl(?:<[^{]*?>)? (?:.* for )?&?(?:'\w+ )?(?:mut )?(\w+)|(?:pub(?:\([a-z]+\))? )?trait (\w+)")
TRAIT = re.compile(r"impl(?:<[^{]*?>)? (\w+)(?:<(\w+)>)? for ")
# A line of a check that says what is wrong at a place; one that does, but says nothing of a contract, since a proof names what an
# edit took away or what isn't proved; and one that says what a function without a file of its proof lacks.
FAULT = re.compile(r"(?:note: )?(?:\./)?(?P<file>(?:src|proofs)/\S+?):(?P<line>\d+):\d+: (?:error|it is not proved)")
LACKS_NAME = re.compile(r"proofs/.*(has no field|is not in scope|has no `|was not admitted)")
LACKS_PROOF = re.compile(r"fn \w+::(?P<path>\S+): no proof: .* did not prove ")
SHOWN_LENGTH, SHOWN_LINES = 200, 25
# What a check ends with.
PROVED, REFUSED, NO_SUCH_PATH = 0, 1, 2

# A text that an edit replaces in a file, and the end of the path of the function that holds it.
Change = namedtuple("Change", "file old new path")
# What a check answered, and the texts of the files that were changed.
Check = namedtuple("Check", "status lines texts")


class BadEdit(Exception):
    """Why an edit can't be applied."""


class Edit:
    """An edit of a crate: its name and its changes."""

    def __init__(self, file, folder):
        self.name, self.changes = f"{folder.name}/{file.stem}", []
        path = old = ""
        for line in file.read_text().splitlines():
            word, _, rest = line.partition(":")
            if word == "file":
                path = rest.strip()
            elif word == "old":
                old = rest[1:]
            elif word == "new":
                text = (folder / path).read_text()
                self.changes.append(Change(path, old, rest[1:], path_at(path, text[: text.find(old) + len(old)])))
        self.paths = {change.path for change in self.changes}

    def fault(self, check):
        """The line of a check that says what is wrong in what the edit changes; None if no line does."""
        for line in check.lines:
            at, lacks = FAULT.match(line), LACKS_PROOF.match(line)
            if lacks and any(is_end(path, lacks["path"]) for path in self.paths):
                return line
            if at and not LACKS_NAME.search(line) and any(is_at(change, at, check.texts) for change in self.changes):
                return line
        return None


def path_at(file, text):
    """The function in which a text ends, by the end of its path: its type or its modules, and its name."""
    names = [name for name in Path(file).with_suffix("").parts[1:] if name not in ("lib", "main", "mod")]
    function = None
    for line in reversed(text.split("\n")):
        if function is None:
            function = FUNCTION.match(line)
        elif not function["indent"]:
            break
        elif TYPE.match(line):
            trait = TRAIT.match(line)
            names = ["".join(filter(None, (*TYPE.match(line).groups(), *(trait.groups() if trait else ()))))]
            break
    return "::".join([*names, *([function["name"]] if function else ())])


def is_end(path, whole):
    return f"::{whole}".endswith(f"::{path}")


def is_at(change, at, texts):
    """Whether a place is in the function that a change is in, or in a file of its proof."""
    if at["file"].startswith("proofs/"):
        return is_end(change.path, "::".join(Path(at["file"]).parts[1:-1]))
    lines = texts.get(at["file"], "").split("\n")[: int(at["line"])]
    return at["file"] == change.file and path_at(change.file, "\n".join(lines)) == change.path


def answer(words, folder):
    """The exit status of a command that runs in a folder, and what it says."""
    pipes = {"stdin": subprocess.DEVNULL, "stdout": subprocess.PIPE, "stderr": subprocess.STDOUT}
    ran = subprocess.run(words, cwd=folder, errors="replace", **pipes)
    return ran.returncode, ran.stdout


def edited(edits, folder):
    """The texts of the files that the edits change."""
    texts = {}
    for change in (change for edit in edits for change in edit.changes):
        text = texts.get(change.file) or (folder / change.file).read_text()
        if text.count(change.old) != 1:
            raise BadEdit(f"a text is in {change.file} {text.count(change.old)} times, and not once")
        texts[change.file] = text.replace(change.old, change.new)
    return texts


class Crate:
    """A crate in a copy of the repository, whose libraries `rt ci` left there."""

    def __init__(self, copy, name):
        self.folder, self.command = copy / "crates" / name, prover.command(copy, name, "check")
        (self.folder / "kept").mkdir()
        self.edits = [Edit(file, self.folder) for file in sorted((AUDIT / name).glob("*.edit"))]

    def check(self, edits, paths):
        """Checks the functions of these paths with these edits; the whole crate, if there are no paths."""
        texts = edited(edits, self.folder)
        words = [*self.command, "--incremental", self.folder / "kept"]
        words += [word for path in sorted(paths) for word in ("--only", path)]
        with tempfile.TemporaryDirectory() as name:
            shutil.copytree(self.folder, name, dirs_exist_ok=True, ignore=shutil.ignore_patterns("out", "kept"))
            for file, text in texts.items():
                (Path(name) / file).write_text(text)
            status, said = answer(words, name)
        # What is said in several lines, all but the first of which are indented, is one.
        return Check(status, re.sub(r"\n +", " ", said).splitlines() or [""], texts)

    def fits(self, edit, others):
        """Whether an edit changes other functions than others do, and can be applied beside them."""
        try:
            edited([*others, edit], self.folder)
        except BadEdit:
            return False
        return all(edit.paths.isdisjoint(other.paths) for other in others)

    def groups(self):
        """The edits, in groups that can be tried together."""
        groups = []
        for edit in self.edits:
            for group in groups:
                if self.fits(edit, group):
                    group.append(edit)
                    break
            else:
                groups.append([edit])
        return groups

    def faults(self, group):
        """By the edit, what is wrong in what it changes; none if the prover wasn't reached, and none of which nothing is told."""
        check = self.check(group, set().union(*(edit.paths for edit in group)))
        if check.status == NO_SUCH_PATH:
            known = [edit for edit in group if not any(f"`{path}`" in line for path in edit.paths for line in check.lines)]
            return self.faults(known) if 0 < len(known) < len(group) else {}
        found = {edit: edit.fault(check) for edit in group} if is_answer(check) else {}
        return {edit: fault for edit, fault in found.items() if fault}

    def tried_alone(self, edit):
        """Whether an edit is refused that is tried by itself, and what the check says."""
        try:
            check = self.check([edit], edit.paths)
            # What calls the function may be what isn't proved; and a constant is in none.
            if check.status in (PROVED, NO_SUCH_PATH):
                check = self.check([edit], [])
        except BadEdit as error:
            return False, f"CAN'T BE TRIED: {error}"
        if check.status == PROVED:
            return False, "NOT REFUSED"
        other = next((line for line in check.lines if ": error" in line or "error[" in line), check.lines[-1])
        said = edit.fault(check) or f"elsewhere, or since a proof names what is gone: {other}"
        return (True, said) if is_answer(check) else (False, f"CAN'T BE TRIED: {said}")

    def outcomes(self):
        """Of each edit its name, whether it is refused, and what the check says."""
        for group in self.groups():
            faults = self.faults(group) if len(group) > 1 else {}
            for edit in group:
                yield edit.name, *((True, faults[edit]) if edit in faults else self.tried_alone(edit))


def is_answer(check):
    """Whether a check came to the prover, which refuses something."""
    return check.status == REFUSED and check.lines[-1].startswith(("logic=", "only="))


def prove(names, copy):
    """Whether the crates and those below them are proved in this copy, or were on this machine before."""
    rows = prover.rows_of_crates(REPOSITORY)
    needed = dict.fromkeys(crate for name in names for crate in [*prover.below(name, rows), name])
    for crate in needed:
        shutil.copytree(REPOSITORY / "crates" / crate, copy / "crates" / crate, ignore=shutil.ignore_patterns("out", "must-fail"))
    (copy / "crates.txt").write_text("".join(f"{rows[crate].string}\n" for crate in needed))
    shutil.copy(REPOSITORY / "HANDLES", copy)
    status, said = answer(["rt", "ci"], copy)
    if status != 0:
        print("\n".join(said.splitlines()[-SHOWN_LINES:]))
    return status == 0


def main():
    names = sys.argv[1:] or sorted(folder.name for folder in AUDIT.iterdir())
    lacking = [name for name in names if not (AUDIT / name).is_dir()]
    if lacking:
        print(f"there are no edits in audit/{lacking[0]}", file=sys.stderr)
        return 64
    passed = failed = 0
    with tempfile.TemporaryDirectory() as name:
        copy = Path(name)
        if not prove(names, copy):
            return results.close(0, 1)
        for crate in names:
            for edit, is_refused, said in Crate(copy, crate).outcomes():
                print(f"{edit}: {'refused: ' if is_refused else ''}{said[:SHOWN_LENGTH]}", flush=True)
                passed, failed = passed + is_refused, failed + (not is_refused)
    return results.close(passed, failed)


if __name__ == "__main__":
    sys.exit(main())
