"""A MariaDB server in a folder of its own, and sessions with it.

The server is of Debian's package mariadb-server-core; it needs no other files than its messages. Where it isn't installed it
is unpacked in a folder, if apt-get can download it within `SECONDS_TO_DOWNLOAD`; nothing is installed.
"""

import os
import shutil
import subprocess
import time
from contextlib import suppress
from pathlib import Path

PROGRAM = "mariadbd"
CLIENT = "mariadb"
PRINTER = "mariadb-binlog"

# What the server's program says of its version. Other versions of `mariadb-binlog` may print other texts.
VERSION = b"Ver 10.11."

# The server's package, the one with its plugins, and the libraries that it needs and others seldom do.
PACKAGES = ["mariadb-server-core", "mariadb-server", "libaio1", "liburing2", "libnuma1"]
KEYS_PLUGIN = "file_key_management"
KEYS = "1;0123456789abcdef0123456789abcdef\n"
SECONDS_TO_DOWNLOAD = 60
SECONDS_TO_START = 300
SECONDS_TO_RUN = 600

OPTIONS = [
    "--no-defaults",
    "--skip-networking",
    "--skip-grant-tables",
    "--innodb-buffer-pool-size=16M",
    "--innodb-log-file-size=4M",
    "--innodb-use-native-aio=0",
    "--log-bin=maria-bin",
]


class LeftOut(Exception):
    """Why no server can run."""


def program_in(folder):
    """The server's program; where it isn't installed, it is unpacked in the folder."""
    for tool in (CLIENT, PRINTER):
        if shutil.which(tool) is None:
            raise LeftOut(f"there is no {tool}")
    installed = shutil.which(PROGRAM, path=f"{os.environ.get('PATH', '')}:/usr/sbin")
    program = Path(installed) if installed else unpacked(folder)
    finished = subprocess.run([program, "--no-defaults", "--version"], capture_output=True, env=environment_of(program))
    if VERSION not in finished.stdout:
        said = (finished.stdout + finished.stderr).decode(errors="replace").strip()
        raise LeftOut(f"{PROGRAM} isn't the version that is known here, but: {said}")
    return program


def unpacked(folder):
    """The server's program, of packages that are unpacked in the folder."""
    if not shutil.which("apt-get") or not shutil.which("dpkg-deb"):
        raise LeftOut(f"there is no {PROGRAM}, and no apt-get and dpkg-deb to unpack it")
    folder.mkdir()
    command = ["apt-get", "--quiet", "--option", "Acquire::Retries=0", "download", *PACKAGES]
    try:
        finished = subprocess.run(command, cwd=folder, capture_output=True, timeout=SECONDS_TO_DOWNLOAD)
    except subprocess.TimeoutExpired:
        raise LeftOut(f"there is no {PROGRAM}, and its package takes too long to download") from None
    packages = sorted(folder.glob("*.deb"))
    if finished.returncode != 0 or len(packages) != len(PACKAGES):
        raise LeftOut(f"there is no {PROGRAM}, and its package can't be downloaded")
    for package in packages:
        subprocess.run(["dpkg-deb", "-x", package, folder], check=True)
    return folder / "usr/sbin" / PROGRAM


def environment_of(program):
    """The environment in which the program runs, with the libraries that are unpacked beside it."""
    libraries = [str(path) for path in program.parent.parent.glob("lib/*-linux-gnu")]
    return os.environ | {"LD_LIBRARY_PATH": ":".join(libraries)}


def plugins_of(program):
    return program.parent.parent / "lib/mysql/plugin"


def encrypting(program, keys):
    """The options of a server that encrypts its log, with keys that are written into a file."""
    if not (plugins_of(program) / f"{KEYS_PLUGIN}.so").exists():
        raise LeftOut(f"there is no plugin {KEYS_PLUGIN}")
    keys.write_text(KEYS)
    options = [f"--plugin-dir={plugins_of(program)}", f"--plugin-load-add={KEYS_PLUGIN}", "--encrypt-binlog=1"]
    return [*options, f"--file-key-management-filename={keys}"]


def is_within(seconds, condition):
    """Whether a condition comes to hold within this time."""
    end = time.monotonic() + seconds
    while not condition():
        if time.monotonic() > end:
            return False
        time.sleep(0.1)
    return True


class Server:
    """A server that keeps its data in a new folder. It is shut down at the end of a `with`, and killed if it isn't then."""

    def __init__(self, program, folder, options):
        folder.mkdir()
        self.data, self.socket, self.said = folder / "data", folder / "socket", folder / "said"
        self.data.mkdir()
        # A server that starts removes the temporary tables of all others that have the same folder for them.
        temporary = folder / "temporary"
        temporary.mkdir()
        messages = program.parent.parent / "share/mysql"
        command = [program, *OPTIONS, f"--datadir={self.data}", f"--socket={self.socket}", f"--pid-file={folder / 'pid'}"]
        command += [f"--lc-messages-dir={messages}", f"--character-sets-dir={messages / 'charsets'}", f"--tmpdir={temporary}", *options]
        command += ["--user=root"] if os.geteuid() == 0 else []
        self.command, self.environment = command, environment_of(program)
        self.launch()

    def __enter__(self):
        self.wait_for_start()
        return self

    def launch(self):
        how = {"env": self.environment, "stdin": subprocess.DEVNULL, "stderr": subprocess.STDOUT}
        with open(self.said, "ab") as said:
            self.process = subprocess.Popen(self.command, stdout=said, **how)

    def wait_for_start(self):
        has_started = is_within(SECONDS_TO_START, lambda: self.has_ended() or self.answers())
        if self.has_ended() or not has_started:
            self.kill()
            raise LeftOut(f"{PROGRAM} doesn't start: {self.said.read_text(errors='replace')[-300:]}")

    def __exit__(self, *raised):
        try:
            with suppress(subprocess.TimeoutExpired):
                self.stop()
        finally:
            self.kill()

    def stop(self):
        subprocess.run([*self.client(), "--execute=shutdown"], stderr=subprocess.DEVNULL, timeout=SECONDS_TO_RUN)
        self.process.wait(SECONDS_TO_RUN)

    def restart(self):
        """Starts a server again that was stopped or killed, with its data."""
        self.launch()
        self.wait_for_start()

    def kill(self):
        self.process.kill()
        self.process.wait()

    def has_ended(self):
        return self.process.poll() is not None

    def client(self):
        return [CLIENT, "--no-defaults", "--batch", "--binary-mode", f"--socket={self.socket}"]

    def answers(self):
        command = [*self.client(), "--execute=select 1"]
        return self.socket.exists() and subprocess.run(command, capture_output=True).returncode == 0

    def run(self, statements):
        """Runs statements, which must succeed, and gives what they print."""
        finished = subprocess.run(
            self.client(), input=statements, stdout=subprocess.PIPE, check=True, timeout=SECONDS_TO_RUN
        )
        return finished.stdout

    def start(self, statements):
        """Starts a session that runs statements and waits for more."""
        session = subprocess.Popen(self.client(), stdin=subprocess.PIPE, stdout=subprocess.DEVNULL)
        session.stdin.write(statements)
        session.stdin.flush()
        return session

    def finish(self, session, statements=b""):
        """Runs the last statements of a session. All must succeed."""
        session.communicate(statements, timeout=SECONDS_TO_RUN)
        if session.returncode != 0:
            raise subprocess.CalledProcessError(session.returncode, session.args)

    def logs(self):
        return sorted(self.data.glob("maria-bin.0*"))
