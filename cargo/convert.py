#!/usr/bin/env python3
"""Makes cargo packages of the proved sources.

Usage: convert.py [--debian] [--repository URL] [--not-laid-out] OUT

OUT gets a workspace of three packages, `binlog`, `binlog-tools` and `binlog-tests`; what it has of an earlier run is
replaced, and a folder that has anything else is refused. With --debian cargo takes the crates that they depend on from
Debian's packages there, without network. The manifests name the repository of the sources: that of --repository, or else the
address of git's remote `origin`. With --not-laid-out the sources are left as they are made, for a compiler, and rustfmt isn't needed.
The sources are converted side by side, by as many processes as there are processors. A form that the converter doesn't know
stops it with file and line, and status 1. Where rustfmt is needed and missing, the status is 69.
"""

import argparse
import os
import re
import shutil
import subprocess
import sys
import tempfile
from concurrent.futures import ProcessPoolExecutor
from itertools import chain, product
from pathlib import Path

from rt_to_rust import crates
from rt_to_rust.devices import LEFT_OUT
from rt_to_rust.facade import public_names
from rt_to_rust.ghosts import without_proofs
from rt_to_rust.host import VERSIONS
from rt_to_rust.imports import Place
from rt_to_rust.inlined import INLINED
from rt_to_rust.items import functions
from rt_to_rust.lifetimes import FIXED
from rt_to_rust.memory_forms import BOTH_FORMS, fallible_clones
from rt_to_rust.passes import Used, rust
from rt_to_rust.shared_forms import SHARED_FORMS
from rt_to_rust.source import Source
from rt_to_rust.tokens import Refusal
from rt_to_rust.visibility import CHECKS, OF_TRAITS

REPOSITORY = Path(__file__).resolve().parent.parent
TEMPLATES = REPOSITORY / "cargo/templates"
MADE = "// Made of {}: change that file.\n"
EDITION = "2024"
LICENCES = ("LICENSE-APACHE", "LICENSE-MIT")

# By which the manifest of a workspace is known as one of these.
MEMBERS = 'members = ["binlog", "binlog-tests", "binlog-tools"]'

# The folder of the crates in Debian's packages, and how cargo is told of it.
REGISTRY = "/usr/share/cargo/registry"
SETTINGS = f"""[source.crates-io]
replace-with = "debian"

[source.debian]
directory = "{REGISTRY}"

[net]
offline = true
"""
SETTINGS_FILE = Path(".cargo/config.toml")


def sources_of(names):
    """Each source of these crates: its crate, its file and its path in the crate."""
    for crate in names:
        for path, relative in crates.sources(REPOSITORY / "crates" / crate):
            yield crate, path, relative


def types_with_fallible_clones():
    """The types whose copies may be refused, of all sources."""
    found = set()
    for _, path, _ in sources_of(crates.LIBRARY):
        found |= set(fallible_clones(without_proofs(Source(path.relative_to(REPOSITORY), path.read_text()))))
    return found


def target(crate, relative):
    """Where the Rust source goes, in the workspace."""
    package = next(name for name, members in crates.PACKAGES.items() if crate in members)
    program = (crates.PROGRAMS | crates.PROBES).get(crate)
    if program:
        return Path(package, "src/bin", program, relative.with_suffix(".rs"))
    name = "mod.rs" if relative.name == "lib.rt" else relative.with_suffix(".rs")
    return Path(package, "src", crate, name)


def place_of(crate, public):
    """Where a crate's paths lead."""
    if crate in crates.LIBRARY:
        return Place(crate, None, is_test=False)
    is_program = crate in crates.PROGRAMS or crate in crates.PROBES
    return Place(None if is_program else crate, public, is_test=crate in crates.TESTKITS + crates.TESTS)


def is_by_hand(source, text, file, found):
    """Whether a source is written by hand in the packages: with all its public functions. Adds it to `found`."""
    name = source.relative_to("crates").as_posix()
    if name not in crates.BY_HAND:
        return False
    found.add(name)
    written = file.read_text() if file.is_file() else ""
    read = Source(source, text)
    for function in functions(read):
        if read.is_at(function.first, "pub", "fn") and f"pub fn {read.code[function.name].text}" not in written:
            raise read.refusal(function.name, f"`{read.code[function.name].text}` isn't in {file.name}, which is by hand")
    return True


def converted(out, public, clones, item):
    """Writes a source, if it isn't by hand in the packages. The rows of tables that this used, and the sources by hand."""
    crate, path, relative = item
    used, by_hand = Used(), set()
    source = path.relative_to(REPOSITORY)
    file = out / target(crate, relative)
    if not is_by_hand(source, path.read_text(), file, by_hand):
        text = rust(source, path.read_text(), place_of(crate, public), public, clones, used)
        file.parent.mkdir(parents=True, exist_ok=True)
        file.write_text(MADE.format(source) + text)
    return used, by_hand


def convert(out):
    """Writes the sources of all packages."""
    used = Used()
    by_hand = set()
    clones = types_with_fallible_clones()
    facade = TEMPLATES / "binlog/src/lib.rs"
    public = public_names(Source(facade.relative_to(REPOSITORY), facade.read_text()))
    sources = list(sources_of(chain.from_iterable(crates.PACKAGES.values())))
    with ProcessPoolExecutor(os.cpu_count()) as pool:
        # Large sources first, so that no process is left with one at the end; the first refusal is still that of the first source.
        largest = sorted(range(len(sources)), key=lambda index: -sources[index][1].stat().st_size)
        begun = {index: pool.submit(converted, out, public, clones, sources[index]) for index in largest}
        for index in range(len(sources)):
            rows, found = begun[index].result()
            used.add(rows)
            by_hand |= found
    unused = ({*CHECKS, *OF_TRAITS} - used.checks) | (set(BOTH_FORMS) - used.both_forms)
    unused |= (set(LEFT_OUT) - used.left_out) | (set(crates.BY_HAND) - by_hand) | (set(INLINED) - used.inlined)
    unused |= (set(SHARED_FORMS) - used.shared_forms) | ({name for _, name in FIXED} - used.lifetimes)
    unused |= set(VERSIONS) - used.versions
    if unused:
        raise Refusal("cargo/rt_to_rust", 0, f"rows of tables that nothing uses: {', '.join(sorted(unused))}")


def lay_out(out):
    """Lays all sources out, by the roots of their packages."""
    roots = [out / package / "src/lib.rs" for package in crates.PACKAGES]
    roots += sorted(out.glob("*/src/bin/*/main.rs"))
    subprocess.run(["rustfmt", "--edition", EDITION, *roots], check=True)


def lacks_rustfmt():
    """Whether rustfmt is missing, which has a message then."""
    if shutil.which("rustfmt"):
        return False
    print("bin/cargo-crate: rustfmt is missing; as root on Debian 12 type: apt-get update && apt-get install rustfmt-web", file=sys.stderr)
    return True


def holds_others(out):
    """Whether a folder has anything but what an earlier run made and what cargo adds to that."""
    made = {path.name for path in TEMPLATES.iterdir()} | {".cargo", "Cargo.lock", "target"}
    found = {path.name for path in out.iterdir()} if out.is_dir() else set()
    manifest = out / "Cargo.toml"
    return bool(found) and (not found <= made or not manifest.is_file() or MEMBERS not in manifest.read_text())


def add_licences(out):
    """Copies the texts of the licences into each package that may be published."""
    for package, licence in product(crates.PUBLISHED, LICENCES):
        shutil.copy(REPOSITORY / licence, out / package)


def set_crates(out, is_debian):
    """Has cargo take crates from Debian's packages, or from its registry."""
    if is_debian:
        settings = out / SETTINGS_FILE
        settings.parent.mkdir()
        settings.write_text(SETTINGS)


def origin():
    """The public address of git's remote `origin`. None where there is none."""
    asked = ["git", "-C", str(REPOSITORY), "remote", "get-url", "origin"]
    try:
        answer = subprocess.run(asked, capture_output=True, text=True)
    except FileNotFoundError:
        return None
    return public_address(answer.stdout.strip())


def public_address(remote):
    """The address of a remote by https, or that by ssh as the same by https, without the name and the password that may stand in it: it
    goes into manifests that are published. None for any other one."""
    by_ssh = re.fullmatch(r"(?:ssh://)?git@([\w.-]+)[:/](.+)", remote)
    url = f"https://{by_ssh[1]}/{by_ssh[2]}" if by_ssh else remote
    return re.sub(r"\Ahttps://[^/]*@", "https://", url).removesuffix(".git") if url.startswith("https://") else None


def name_repository(out, url):
    """Has the manifests name the repository of the sources."""
    for package in crates.PUBLISHED:
        manifest = out / package / "Cargo.toml"
        licence = "license.workspace = true\n"
        manifest.write_text(manifest.read_text().replace(licence, f'{licence}repository = "{url}"\n'))


def read_arguments():
    parser = argparse.ArgumentParser(description="Makes cargo packages of the proved sources.")
    parser.add_argument("--debian", action="store_true", help="cargo takes crates from Debian's packages")
    parser.add_argument(
        "--repository", metavar="URL", default=origin(), help="the repository of the sources, for the manifests"
    )
    parser.add_argument("--not-laid-out", action="store_true", help="leaves the sources as they are made, without rustfmt")
    parser.add_argument("out", metavar="OUT", type=Path)
    return parser.parse_args()


def make(new, arguments):
    """Makes the packages in a folder that isn't there yet."""
    shutil.copytree(TEMPLATES, new)
    add_licences(new)
    set_crates(new, arguments.debian)
    if arguments.repository:
        name_repository(new, arguments.repository)
    convert(new)
    if not arguments.not_laid_out:
        lay_out(new)


def files_in(folder):
    """The files in a folder and those below it, by their paths from there."""
    return {path.relative_to(folder) for path in folder.rglob("*") if path.is_file()}


def put_in_place(new, out):
    """Gives OUT what was made. A file that has the same bytes already stays as it is, so that cargo builds only what changed."""
    made = files_in(new)
    for file in made:
        source, place = new / file, out / file
        if place.is_file() and place.read_bytes() == source.read_bytes():
            continue
        place.parent.mkdir(parents=True, exist_ok=True)
        shutil.copy(source, place)
    for package, folder in product(crates.PACKAGES, ("src", "tests", "examples")):
        old = {Path(package, folder, file) for file in files_in(out / package / folder)}
        for file in old - made:
            (out / file).unlink()
    if SETTINGS_FILE not in made:
        (out / SETTINGS_FILE).unlink(missing_ok=True)


def main():
    arguments = read_arguments()
    out = arguments.out
    if not arguments.not_laid_out and lacks_rustfmt():
        return 69
    if holds_others(out):
        print(f"{out} isn't empty, and isn't a workspace of an earlier run", file=sys.stderr)
        return 1
    with tempfile.TemporaryDirectory() as folder:
        new = Path(folder, "packages")
        try:
            make(new, arguments)
        except Refusal as refusal:
            print(refusal, file=sys.stderr)
            return 1
        put_in_place(new, out)
    return 0


if __name__ == "__main__":
    sys.exit(main())
