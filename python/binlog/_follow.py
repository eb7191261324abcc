"""The rows of a log that is followed, which the program `binlog` prints."""

import asyncio
import json
import os
import subprocess
import threading
import weakref
from collections.abc import AsyncIterator, Iterable, Iterator
from concurrent.futures import Future
from queue import SimpleQueue
from typing import IO, Any, Optional, Union

from ._program import ProgramError, program as program_at
from ._statistics import Path, _argument, _listed

# In the place of an object where there is none any more.
_ENDED = None


def _collect(lines: IO[bytes], found: list[bytes]) -> None:
    for line in lines:
        found.append(line)


def _serve(wanted: "SimpleQueue[Any]") -> None:
    """Waits for the object of each request, or for the error in its place. A request is where it goes to, and what reads it."""
    while (request := wanted.get()) is not None:
        coming, read = request
        try:
            found = read()
        except BaseException as error:
            found = error
        coming.set_result(found)
        # What is followed isn't kept while nothing is wanted.
        del request, coming, read, found


def _end(running: "subprocess.Popen[bytes]", wanted: "SimpleQueue[Any]", owner: int) -> None:
    """Ends the program, if this is the process that began it, and the thread that waits for it."""
    if os.getpid() == owner:
        running.kill()
        running.wait()
        wanted.put(None)


def _given(found: Any) -> Any:
    """An object. An error in its place is raised."""
    if isinstance(found, BaseException):
        raise found
    return found


class Followed:
    """The objects of a log that is followed, one after the other, for ever: `for` and `async for` give them, `close()` ends it, also
    while an object is waited for.

    Each is an object of docs/JSON.md. It raises ProgramError where the program ends, as at damage. An object that comes after its waiter
    was cancelled is the next one. The program ends where this process exits, and once nothing names the Followed any more.
    """

    def __init__(self, command: list[str]) -> None:
        # A pipe that nobody reads would stop the program; what it says is for the error.
        try:
            self._running = subprocess.Popen(command, stdin=subprocess.DEVNULL, stdout=subprocess.PIPE, stderr=subprocess.PIPE)
        except OSError as error:
            raise ProgramError(f"{command[0]}: {error.strerror}") from error
        self._messages: list[bytes] = []
        self._reader = threading.Thread(target=_collect, args=(self._running.stderr, self._messages), daemon=True)
        self._reader.start()
        self._is_closed = False
        # The next object, if a thread waits for it, or has it; and the requests of this thread, which begins with the first one.
        self._coming: "Optional[Future[Any]]" = None
        self._wanted: "SimpleQueue[Any]" = SimpleQueue()
        self._waiting: Optional[threading.Thread] = None
        self._lock = threading.Lock()
        weakref.finalize(self, _end, self._running, self._wanted, os.getpid())

    def __enter__(self) -> "Followed":
        return self

    def __exit__(self, *_: object) -> None:
        self.close()

    def close(self) -> None:
        """Ends the program. It goes on from its state the next time."""
        self._is_closed = True
        self._running.kill()
        self._running.wait()
        self._reader.join()
        for end in (self._running.stdout, self._running.stderr):
            assert end is not None
            end.close()

    @property
    def messages(self) -> list[str]:
        """What the program said so far, a text for each line: why it waits, for one."""
        return [line.decode(errors="replace").rstrip("\n") for line in list(self._messages)]

    def _read(self) -> Optional[dict[str, Any]]:
        """The object of the next line; none where this is closed."""
        assert self._running.stdout is not None
        try:
            line = self._running.stdout.readline()
        except ValueError:
            # The pipe is closed.
            line = b""
        if line.endswith(b"\n"):
            return json.loads(line)
        if self._is_closed:
            return _ENDED
        status = self._running.wait()
        self._reader.join()
        message = b"".join(self._messages).decode(errors="replace").strip()
        raise ProgramError(message or f"the program ended with status {status}")

    def __iter__(self) -> Iterator[dict[str, Any]]:
        return self

    def __next__(self) -> dict[str, Any]:
        while (coming := self._coming) is not None:
            found = coming.result()
            if self._takes(coming):
                break
        else:
            found = self._read()
        if found is _ENDED:
            raise StopIteration
        return _given(found)

    async def __aiter__(self) -> AsyncIterator[dict[str, Any]]:
        while (found := await self._awaited()) is not _ENDED:
            yield found

    async def _awaited(self) -> Optional[dict[str, Any]]:
        """The next object, which a thread waits for. Where this is cancelled, it stays for the next one who asks."""
        while True:
            coming = self._asked_for()
            found = await asyncio.wrap_future(coming)
            if self._takes(coming):
                return _given(found)

    def _takes(self, coming: "Future[Any]") -> bool:
        """Whether what has come is the caller's. Another one may have taken it."""
        with self._lock:
            is_next = self._coming is coming
            if is_next:
                self._coming = None
            return is_next

    def _asked_for(self) -> "Future[Any]":
        """What a thread waits for; it is asked for if it isn't yet."""
        with self._lock:
            if self._coming is None:
                self._coming = Future()
                # So it can't be cancelled by one who waits for it.
                self._coming.set_running_or_notify_cancel()
                self._wanted.put((self._coming, self._read))
            if self._waiting is None:
                self._waiting = threading.Thread(target=_serve, args=(self._wanted,), daemon=True)
                self._waiting.start()
            return self._coming


def follow(
    path: Path,
    *,
    state: Optional[Path] = None,
    sync: bool = False,
    compact: bool = True,
    tables: Iterable[str] = (),
    columns: Union[Path, Iterable[Path]] = (),
    program: Optional[Path] = None,
) -> Followed:
    """Follows a log from a file on, as it grows, and from each of its files to the next, for ever.

    path: the file; with a state that is there only its folder counts.
    state: a file that has where to go on. Objects that were given since it was written last are given again the next time.
    sync: whether the state has to be on its device before more objects are given.
    compact: whether the objects are rows alone; else they are events.
    tables: of these tables alone, each as "shop.orders"; * stands for any bytes, ? for one.
    columns: files of columns, in order, or one of them.
    program: the program `binlog`; if not given, the one that the variable BINLOG_PROGRAM names, or the one that the system finds.

    Raises ProgramError where the program isn't found; iterating does, where it ends.
    """
    words = ["json", "--follow"] + (["--compact"] if compact else []) + (["--sync"] if sync else [])
    words += [] if state is None else ["--state", _argument(state)]
    words += [word for table in tables for word in ("--table", table)]
    words += [word for file in _listed(columns) for word in ("--columns", _argument(file))]
    return Followed([program_at(program), *words, _argument(path)])
