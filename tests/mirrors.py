"""Servers of both kinds whose logs are mirrored, and their mirrors: programs of the servers that write the files of a running server's
log into a folder, as they grow."""

import re
import subprocess
from pathlib import Path

import listing_model
import maria_daemon
import mysql_daemon
from maria_daemon import is_within

SECONDS_TO_MIRROR = 300
# An id that no server has: of two connections with one id a server ends the older one.
ID = 4711
# In each file, the byte of the description's flags that says whether a server has the file open.
IN_USE = 21


class Maria:
    """MariaDB's servers and mirrors."""

    name = "MariaDB"
    # Whether the list in a file tells that the file before it is whole, if that has no transaction.
    tells_of_none = True
    options = ["--server-id=7", "--binlog-format=ROW", "--binlog-checksum=CRC32"]

    def __init__(self, folder):
        self.program = maria_daemon.program_in(folder / "unpacked")

    def server(self, folder, *options):
        """A server that runs in a `with`."""
        return maria_daemon.Server(self.program, folder, [*self.options, *options])

    def client(self, server):
        """How a client is called that goes on behind a statement that fails."""
        return [*server.client(), "--skip-column-names", "--force"]

    def mirror(self, server):
        return [maria_daemon.PRINTER, "--no-defaults", f"--stop-never-slave-server-id={ID}", f"--socket={server.socket}"]


class Mysql:
    """MySQL's servers and mirrors."""

    name = "MySQL"
    tells_of_none = False

    def __init__(self, folder):
        self.programs, self.data = mysql_daemon.unpacked()

    def server(self, folder, *options):
        """A server that runs in a `with`."""
        return StartedServer(self.programs, self.data, folder, options)

    def client(self, server):
        """How a client is called that goes on behind a statement that fails."""
        return server.client("--force")

    def mirror(self, server):
        return [*self.programs.command("mysqlbinlog"), f"--connection-server-id={ID}", f"--socket={server.socket}"]


class StartedServer(mysql_daemon.Server):
    """A MySQL server that is started with the same options each time."""

    def __init__(self, programs, new_data, folder, options):
        super().__init__(programs, new_data, folder)
        self.options = options

    def __enter__(self):
        self.restart()
        return self

    def restart(self):
        self.start(*self.options)


class Mirror:
    """A mirror of a server's log, from its first file on or a later one, in a new folder. It ends when its connection does. Each time that it
    is begun it empties the newest file of the folder and writes it again."""

    def __init__(self, kind, server, folder, first=None):
        folder.mkdir()
        self.kind, self.server, self.folder = kind, server, folder
        self.first = first or server.logs()[0].name
        self.running = None

    def __enter__(self):
        self.begin()
        return self

    def __exit__(self, *raised):
        self.kill()

    def begin(self):
        words = [*self.kind.mirror(self.server), "--read-from-remote-server", "--raw", "--stop-never", "--user=root"]
        words += [f"--result-file={self.folder}/", self.first_name()]
        self.running = subprocess.Popen(words, stdin=subprocess.DEVNULL, stdout=subprocess.DEVNULL, stderr=subprocess.DEVNULL)

    def first_name(self):
        """The file with which the mirror begins: the newest one. MariaDB leaves the beginning of an event at the end of a file behind a
        crash, where a mirror ends each time; then it is the next one."""
        newest = max(self.logs(), default=None)
        if newest is None:
            return self.first
        source, behind = self.server.data / newest.name, [log.name for log in self.sources() if log.name > newest.name]
        is_stuck = bool(behind) and source.stat().st_size > size_of_events(source) == size_of_events(newest)
        return behind[0] if is_stuck else newest.name

    def keep(self):
        """Begins a mirror again that has ended by itself."""
        if self.has_ended():
            self.begin()

    def has_ended(self):
        return self.running.poll() is not None

    def writes(self):
        """How often the mirror has written, or tried to; 0 if that isn't known."""
        try:
            counts = Path(f"/proc/{self.running.pid}/io").read_text()
        except OSError:
            return 0
        found = re.search(r"^syscw: (\d+)$", counts, re.MULTILINE)
        return int(found[1]) if found else 0

    def kill(self):
        self.running.kill()
        self.running.wait()

    def logs(self):
        return sorted(self.folder.iterdir())

    def sources(self):
        """The server's files that are mirrored."""
        return [log for log in self.server.logs() if log.name >= self.first]

    def has_begun(self):
        """Whether there comes to be a first file."""
        return is_within(SECONDS_TO_MIRROR, self.has_bytes)

    def has_bytes(self):
        self.keep()
        return any(log.stat().st_size for log in self.logs())

    def is_whole(self):
        """Whether the mirror's files come to be the server's."""
        return is_within(SECONDS_TO_MIRROR, self.has_all_bytes)

    def has_all_bytes(self):
        """Whether all files are the server's, but for the byte that says whether it has them open, and the beginning of an event that a
        crash left at the end of a file before the last one."""
        self.keep()
        for log in self.sources():
            mirrored = self.folder / log.name
            content, found = bytes_of(log), bytes_of(mirrored) if mirrored.exists() else b""
            if found != content and (log == self.sources()[-1] or found != content[: size_of_events(log)]):
                return False
        return True


def bytes_of(log):
    """The bytes of a file, as that of a server that hasn't it open."""
    content = bytearray(log.read_bytes())
    content[IN_USE : IN_USE + 1] = bytes(1)
    return bytes(content)


def size_of_events(log):
    """The size of a file without the beginning of an event at its end."""
    content = log.read_bytes()
    end = len(listing_model.FILE_HEADER)
    while listing_model.is_frame(frame := content[end : end + stated_size(content, end)]):
        end += len(frame)
    return min(end, len(content))


def stated_size(content, place):
    """The size that the header of an event states; 0 without a header."""
    return listing_model.event_size(content[place : place + listing_model.HEADER_LENGTH])
