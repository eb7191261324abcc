"""A MySQL 9 server in a folder of its own, and sessions with it.

The server and the client's programs are those of Debian's packages mysql-server-core and mysql-client-core, which the
distribution sid has. An apt-get with folders of its own downloads them and what they need from the machine's mirror of Debian;
they are unpacked into a folder that is kept, and nothing is installed. The programs run with the libraries that are unpacked
beside them. The data of a new server is made once, and kept there too.
"""

import fcntl
import os
import shutil
import signal
import subprocess
import tempfile
from pathlib import Path

from maria_daemon import LeftOut, is_within

# What the server's program says of its version. Other versions of `mysqlbinlog` may print other texts.
VERSION = b"Ver 9."

DISTRIBUTION = "sid"
PACKAGES = ["mysql-server-core", "mysql-client-core"]
# Packages that are there for their scripts alone.
NOT_NEEDED = ("perl", "libperl")

SECONDS_TO_DOWNLOAD = 180
SECONDS_TO_START = 300
SECONDS_TO_RUN = 600

OPTIONS = [
    "--log-bin=binlog",
    "--server-id=7",
    "--gtid-mode=ON",
    "--enforce-gtid-consistency=ON",
    "--sync-binlog=0",
    "--innodb-flush-log-at-trx-commit=2",
    "--innodb-doublewrite=OFF",
    "--secure-file-priv=",
    "--local-infile=1",
    "--event-scheduler=OFF",
    "--max-allowed-packet=1G",
]

# The options of an apt-get that has all its files in one folder, and only the packages of one list. By its status nothing is
# installed, so it downloads all that is needed.
APT_OPTIONS = """\
Dir::Etc::sourcelist "{folder}/sources.list";
Dir::Etc::sourceparts "/dev/null";
Dir::Etc::preferences "/dev/null";
Dir::Etc::preferencesparts "/dev/null";
Dir::State "{folder}/state";
Dir::State::lists "{folder}/lists";
Dir::State::status "{folder}/status";
Dir::Cache "{folder}/cache";
Dir::Cache::archives "{folder}/archives";
Dir::Log "{folder}";
APT::Sandbox::User "root";
APT::Install-Recommends "false";
Acquire::Languages "none";
Acquire::Retries "0";
"""
APT_FOLDERS = ["lists/partial", "state", "cache", "archives/partial"]


def kept_folder():
    """The folder in which the unpacked server is kept."""
    caches = os.environ.get("XDG_CACHE_HOME") or Path.home() / ".cache"
    return Path(caches) / "binlog-tests" / "mysql"


# ---- The unpacked server


class Programs:
    """The unpacked programs."""

    def __init__(self, root):
        self.root, self.share = root, root / "usr/share/mysql"
        (loader,) = root.glob("usr/lib/*/ld-linux-*.so.*")
        self.loader = [loader, "--library-path", loader.parent]

    def command(self, name):
        """How a program is called."""
        (program,) = self.root.glob(f"usr/*bin/{name}")
        return [*self.loader, program, "--no-defaults", f"--character-sets-dir={self.share / 'charsets'}"]

    def server(self, data, temporary):
        user = ["--user=root"] if os.geteuid() == 0 else []
        return [
            *self.command("mysqld"),
            *user,
            f"--basedir={self.root / 'usr'}",
            f"--datadir={data}",
            f"--tmpdir={temporary}",
            f"--lc-messages-dir={self.share}",
            "--skip-networking",
            "--mysqlx=OFF",
            "--auto-generate-certs=OFF",
            "--performance-schema=OFF",
            "--default-time-zone=+00:00",
            "--innodb-buffer-pool-size=64M",
            "--innodb-redo-log-capacity=16M",
            "--innodb-use-native-aio=0",
        ]


def unpacked():
    """The unpacked programs, and the data of a new server: those that are kept, or new ones. `LeftOut` says why there are none."""
    kept = kept_folder()
    kept.parent.mkdir(parents=True, exist_ok=True)
    # Of several scripts that begin at a time one downloads the packages, and the others wait for it.
    with open(kept.parent / "lock", "w") as lock:
        is_first = is_locked(lock)
        fcntl.flock(lock, fcntl.LOCK_EX)
        if not (kept / "data").exists():
            if not is_first:
                raise LeftOut("the packages of a MySQL server couldn't be downloaded by another script")
            keep(kept)
    return Programs(kept / "root"), kept / "data"


def is_locked(lock):
    """Whether a file can be locked at once; it is then."""
    try:
        fcntl.flock(lock, fcntl.LOCK_EX | fcntl.LOCK_NB)
    except BlockingIOError:
        return False
    return True


def keep(kept):
    """Makes the folder that is kept."""
    with tempfile.TemporaryDirectory(dir=kept.parent) as name:
        folder = Path(name)
        unpack(folder, folder / "new/root")
        initialize(Programs(folder / "new/root"), folder / "new/data")
        (folder / "new").rename(kept)


def unpack(folder, root):
    for tool in ("apt-get", "dpkg-deb"):
        if shutil.which(tool) is None:
            raise LeftOut(f"there is no {tool} to unpack a MySQL server")
    archives = downloaded(folder / "apt")
    root.mkdir(parents=True)
    for archive in archives:
        if not archive.name.startswith(NOT_NEEDED):
            subprocess.run(["dpkg-deb", "-x", archive, root], check=True)
        archive.unlink()
    finished = subprocess.run([*Programs(root).command("mysqld"), "--version"], capture_output=True)
    if VERSION not in finished.stdout:
        said = (finished.stdout + finished.stderr).decode(errors="replace").strip()
        raise LeftOut(f"the MySQL server isn't the version that is known here, but: {said}")


def mirror():
    """The machine's mirror of Debian."""
    command = ["apt-get", "indextargets", "--format", "$(REPO_URI)", "Created-By: Packages"]
    places = subprocess.run(command, capture_output=True, text=True).stdout.split()
    for place in places:
        if place.rstrip("/").endswith("/debian"):
            return place
    raise LeftOut("apt-get has no mirror of Debian to download a MySQL server from")


def downloaded(folder):
    """The archives of the packages and of all that they need."""
    for name in APT_FOLDERS:
        (folder / name).mkdir(parents=True)
    (folder / "status").touch()
    keys = next(iter(sorted(Path("/usr/share/keyrings").glob("debian-archive-keyring.*"))), None)
    signed = f"[signed-by={keys}] " if keys else ""
    (folder / "sources.list").write_text(f"deb {signed}{mirror()} {DISTRIBUTION} main\n")
    (folder / "options").write_text(APT_OPTIONS.format(folder=folder))
    for words in (["update"], ["--yes", "--download-only", "install", *PACKAGES]):
        command = ["apt-get", "--quiet", "--config-file", folder / "options", *words]
        try:
            finished = subprocess.run(command, capture_output=True, timeout=SECONDS_TO_DOWNLOAD)
        except subprocess.TimeoutExpired:
            raise LeftOut("the packages of a MySQL server take too long to download") from None
        if finished.returncode != 0:
            raise LeftOut("the packages of a MySQL server can't be downloaded")
    return sorted((folder / "archives").glob("*.deb"))


def initialize(programs, data):
    """Makes the data of a new server, which has a user `root` without a password."""
    with tempfile.TemporaryDirectory() as temporary:
        said = subprocess.run([*programs.server(data, temporary), "--initialize-insecure"], capture_output=True)
    if said.returncode != 0:
        raise LeftOut(f"the MySQL server doesn't start: {said.stderr.decode(errors='replace')[-300:]}")
    (data / "auto.cnf").unlink()


# ---- A server


class Server:
    """A server with data of its own in a new folder. It is killed at the end of a `with`, if it runs then."""

    def __init__(self, programs, new_data, folder):
        folder.mkdir()
        self.programs, self.folder, self.data, self.socket = programs, folder, folder / "data", folder / "socket"
        self.said = folder / "said"
        shutil.copytree(new_data, self.data)
        self.process = None

    def __enter__(self):
        return self

    def __exit__(self, *raised):
        self.kill()

    def start(self, *options):
        # Those of a server that was killed: the lock has the number of its process, which another one may have by now.
        for left in (self.socket, self.folder / "socket.lock"):
            left.unlink(missing_ok=True)
        command = [*self.programs.server(self.data, self.folder), f"--socket={self.socket}", f"--pid-file={self.folder / 'pid'}"]
        with open(self.said, "ab") as said:
            self.process = subprocess.Popen(
                [*command, *OPTIONS, *options], stdin=subprocess.DEVNULL, stdout=said, stderr=subprocess.STDOUT
            )
        has_started = is_within(SECONDS_TO_START, lambda: self.has_ended() or self.answers())
        if self.has_ended() or not has_started:
            self.kill()
            raise LeftOut(f"the MySQL server doesn't start: {self.said.read_text(errors='replace')[-300:]}")

    def stop(self):
        self.process.send_signal(signal.SIGTERM)
        self.process.wait(SECONDS_TO_RUN)

    def kill(self):
        if self.process is not None:
            self.process.kill()
            self.process.wait()

    def has_ended(self):
        return self.process.poll() is not None

    def client(self, *options):
        words = ["--user=root", f"--socket={self.socket}", "--batch", "--raw", "--skip-column-names", "--binary-mode"]
        words += ["--local-infile=1", "--default-character-set=utf8mb4", "--max-allowed-packet=1G"]
        return [*self.programs.command("mysql"), *words, *options]

    def answers(self):
        command = self.client("--execute=do 1")
        return self.socket.exists() and subprocess.run(command, capture_output=True).returncode == 0

    def run(self, statements, *options):
        """Runs statements, which must succeed, and gives what they print."""
        finished = subprocess.run(self.client(*options), input=statements, capture_output=True, timeout=SECONDS_TO_RUN)
        if finished.returncode != 0:
            raise RuntimeError(f"refused: {finished.stderr.decode(errors='replace')[:2000]}")
        return finished.stdout

    def begin(self, statements):
        """Begins a session that runs statements."""
        session = subprocess.Popen(self.client(), stdin=subprocess.PIPE, stdout=subprocess.DEVNULL, stderr=subprocess.DEVNULL)
        session.stdin.write(statements)
        session.stdin.flush()
        return session

    def rows(self, query):
        """What a query gives: the columns of each row, as text."""
        return [line.split("\t") for line in self.run(query.encode()).decode().splitlines()]

    def logs(self):
        return sorted(self.data.glob("binlog.0*"))
