"""The programs that the scripts run, of two builds: the proved ones, and those that cargo makes of the packages.

A script says by a flag which build it runs: `--proved`, `--cargo`, or `--program COMMAND` for another command in place of its
program, as one argument. One that compares programs takes several of these. Each program has a purpose, and is the words of a
command that reads a log from standard input. Some purposes have several programs, which have to print the same.
"""

import shlex
import subprocess
from pathlib import Path

REPOSITORY = Path(__file__).resolve().parent.parent
CRATES = REPOSITORY / "crates"

# The cargo packages, and the profile in which they are tested.
PACKAGES = REPOSITORY / "out/cargo-tests"
PROFILE = "checked"


class Build:
    """A build: its name, for each purpose its programs, a pattern of what `binlog --version` says of how it was made, and
    whether the programs are of Rust's runtime, which opens the null device in place of a standard descriptor that is closed."""

    def __init__(self, name, programs, making, has_rusts_runtime=False):
        self.name, self.programs, self.making, self.has_rusts_runtime = name, programs, making, has_rusts_runtime

    def commands(self, purpose):
        """The programs of a purpose, each as the words of its command; none if the build has none."""
        return [[str(word) for word in words] for words in self.programs.get(purpose, [])]

    def command(self, purpose):
        """The first program of a purpose."""
        return self.commands(purpose)[0]


def proved(crate, *words):
    """A command of the program that the prover builds of a crate."""
    return [CRATES / crate / "out" / crate, *words]


def packaged(program, *words):
    """A command of a program of the cargo packages."""
    return [PACKAGES / "target" / PROFILE / program, *words]


PROVED = Build(
    "proved",
    {
        "list": [proved("binlog_list"), proved("binlog", "list")],
        # Lists a log that it has in memory as a whole.
        "list a slice": [proved("probe", "slice-listing")],
        "json": [proved("binlog", "json")],
        "gtids": [proved("binlog", "gtids")],
        "binlog": [proved("binlog")],
        "verify": [proved("probe", "verifying")],
        "write back": [proved("probe", "write-back"), proved("binlog", "copy", "--output", "-")],
        "benchmark": [proved("probe")],
        "rows": [proved("binlog", "json")],
        "texts": [proved("probe", "inflate")],
        "frames": [proved("probe", "frames")],
        "events": [proved("probe", "events")],
    },
    making="proved",
)
CARGO = Build(
    "cargo",
    {
        "list": [packaged("binlog", "list")],
        "json": [packaged("binlog", "json")],
        "gtids": [packaged("binlog", "gtids")],
        "binlog": [packaged("binlog")],
        "write back": [packaged("write-back"), packaged("binlog", "copy", "--output", "-")],
        "rows": [packaged("binlog", "json"), packaged("displayed-rows")],
        "undone rows": [packaged("probe", "undo")],
        # Answers a question of each line.
        "questions": [packaged("probe", "questions")],
        "texts": [packaged("probe", "inflate")],
        "frames": [packaged("probe", "frames")],
        "events": [packaged("probe", "events")],
    },
    making="made from the proved sources, compiled by rustc, tested",
    has_rusts_runtime=True,
)


def is_command(words):
    """Whether this is a command of the program `binlog`."""
    return Path(words[0]).name == "binlog"


def given(command):
    """A build of which each program is this command."""
    words = shlex.split(command)
    return Build("given", dict.fromkeys(PROVED.programs | CARGO.programs, [words]), making=".*")


def add_flags(parser, compares=False):
    """Adds the flags that say which programs are run; where the script compares programs, also that both builds are."""
    which = parser.add_argument_group("programs")
    for build in (PROVED, CARGO):
        which.add_argument(
            f"--{build.name}", dest="builds", action="append_const", const=build, help=f"the {build.name} ones"
        )
    which.add_argument("--program", dest="builds", action="append", type=given, metavar="COMMAND", help="this one")
    if compares:
        which.add_argument("--beside", action="store_true", help="the proved ones beside those of cargo, where these are built")


def add_purposes(parser):
    """Adds the flags that say which listing is meant."""
    parser.set_defaults(purpose="list")
    which = parser.add_mutually_exclusive_group()
    for purpose, help_text in (("json", "lines of JSON"), ("gtids", "listings of GTIDs")):
        which.add_argument(f"--{purpose}", dest="purpose", action="store_const", const=purpose, help=help_text)


def parsed(parser, *purposes):
    """The arguments, with the `builds` that the flags name, of which the first is the `build`: one, or several where the
    script compares programs. Each has programs for one of these purposes, or for that which the flags name, and all that it
    has are there."""
    arguments = parser.parse_args()
    compares = "beside" in arguments
    arguments.builds = builds = beside() if compares and arguments.beside else arguments.builds or []
    if not builds or len(set(builds)) < len(builds) or len(builds) > 1 and not compares:
        parser.error("which programs? --proved, --cargo or --program says it")
    for build in builds:
        commands = [words for purpose in purposes or [arguments.purpose] for words in build.commands(purpose)]
        if not commands:
            parser.error(f"there is no {build.name} program for this")
        for words in commands:
            if not is_built(words):
                parser.error(f"no program at {words[0]}")
    arguments.build = builds[0]
    return arguments


def is_built(words):
    return Path(words[0]).is_file()


def beside():
    """Both builds, where the programs of cargo are built."""
    if is_built(CARGO.command("list")):
        return [PROVED, CARGO]
    print("The programs of the cargo packages aren't built: the proved ones alone are run.")
    return [PROVED]


def run(words, content):
    """What a command prints of a log, and its status."""
    finished = subprocess.run(words, input=content, stdout=subprocess.PIPE, stderr=subprocess.DEVNULL)
    return finished.stdout, finished.returncode
