"""Runs of `binlog json --compact --follow --state`, one after the other, whose lines go to one file."""

import re
import subprocess
from contextlib import contextmanager

from maria_daemon import is_within

# How long what is wanted may take, in seconds: machines stand still at times.
PATIENCE = 300
# What is said where something is missing for ten seconds, and of a transaction that a server lost.
WAITS = rb"the (next file('s list of GTIDs)?|file|rest of a transaction) isn't there( yet)?|the file is shorter than [^\n]*|the GTIDs that are there so far [^\n]*"
WAITING = rb"(binlog: [^:\n]*: (" + WAITS + rb"|the next file is there, [^\n]*|what is behind byte \d+ is left out: [^\n]*)\n)*"


class Follower:
    """Follows the log files in a folder, as often as it is begun. Lines, messages and states are in another folder."""

    def __init__(self, program, logs, folder, *options):
        folder.mkdir()
        self.program, self.logs, self.folder, self.options = program, logs, folder, options
        self.lines, self.messages = folder / "lines", folder / "messages"
        self.process, self.first, self.wrong_ends = None, None, []

    def __enter__(self):
        return self

    def __exit__(self, *raised):
        self.kill()

    def state(self):
        """The state file of the log that begins with the first file."""
        return self.folder / f"state-{self.first}"

    def begin(self, first=None):
        """Begins with a file, or goes on by its state."""
        self.first = first or self.first
        words = [self.program, "json", "--compact", "--follow", "--state", self.state(), *self.options, self.first]
        with open(self.lines, "ab") as lines, open(self.messages, "ab") as messages:
            self.process = subprocess.Popen(words, cwd=self.logs, stdin=subprocess.DEVNULL, stdout=lines, stderr=messages)

    def kill(self):
        """Kills the run, if one is there. Where it has ended by itself, that is noted."""
        if self.process is not None:
            self.wrong_ends += filter(None, [self.wrong_end()])
            self.process.kill()
            self.process.wait()
            self.process = None

    @contextmanager
    def run(self, first=None):
        """A run that is killed at the end of the `with`."""
        self.begin(first)
        try:
            yield self
        finally:
            self.kill()

    def wrong_end(self):
        """None if the run goes on, else how it has ended."""
        status = self.process.poll()
        return None if status is None else f"it ended with {status}: {self.said()[-300:]!r}"

    def said(self):
        return self.messages.read_bytes()

    def stopped(self, status, pattern):
        """None if the run ends by itself with this status and message, else what is wrong."""
        try:
            found = self.process.wait(PATIENCE)
        except subprocess.TimeoutExpired:
            return "it doesn't end"
        self.process = None
        return None if found == status and re.fullmatch(WAITING + pattern, self.said()) else f"status {found}, it said {self.said()!r}"

    def wrong_lines(self, wanted):
        """None if these come to be all lines, else what is wrong."""
        is_over = lambda: self.lines.stat().st_size >= len(wanted) or (self.process is not None and self.wrong_end() is not None)
        if is_within(PATIENCE, is_over) and self.lines.read_bytes() == wanted:
            return None
        return f"other lines: {difference(self.lines.read_bytes(), wanted)}; it said {self.said()[-300:]!r}"

    def place(self):
        """The file and the position in the state; None if there is no state."""
        state = self.state()
        if not state.exists():
            return None
        members = dict(line.split(" ", 1) for line in state.read_text().splitlines())
        return members["file"], int(members["position"])

    def is_behind(self, name):
        """Whether the state has a later file than that of this name."""
        place = self.place()
        return place is not None and place[0] > name

    def wrong_place(self, *wanted):
        """None if the state comes to have this file and position, else what is wrong."""
        is_over = lambda: self.place() == wanted or self.wrong_end() is not None
        if is_within(PATIENCE, is_over) and self.place() == wanted:
            return None
        return f"the state has {self.place()}, not {wanted}; it said {self.said()[-300:]!r}"


def difference(found, wanted):
    """Where lines differ."""
    pairs = zip(found.splitlines(True), wanted.splitlines(True))
    for place, (line, wanted_line) in enumerate(pairs):
        if line != wanted_line:
            return f"line {place} is {line[:300]!r}, not {wanted_line[:300]!r}"
    return f"{len(found)} bytes, not {len(wanted)}"
