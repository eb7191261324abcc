"""The shared library, and the structures of include/binlog.h."""

import ctypes
import ctypes.util
import os
import struct
from collections.abc import Iterator
from contextlib import contextmanager
from functools import cache
from pathlib import Path

VARIABLE = "BINLOG_LIBRARY"
FILE = "libbinlog.so"

# binlog_item: position, description, data_position, data_size; timestamp, server_id, event_size, log_pos; flags,
# event_type, error; checksum; has_checksum, computed_checksum.
ITEM = struct.Struct("=4Q4IHBB4s2I")


# The number of the error of want of memory, of a cursor that is no place, of a text that isn't that of a file of columns, and of logs
# that can't be undone.
MEMORY = 12
INVALID_CURSOR = 100
INVALID_COLUMNS = 103
REFUSED = 119


class CursorStruct(ctypes.Structure):
    """binlog_cursor"""

    _fields_ = [
        ("position", ctypes.c_uint64),
        ("description", ctypes.c_uint64),
        ("ended", ctypes.c_uint64),
    ]


class UndoOptionsStruct(ctypes.Structure):
    """binlog_undo_options"""

    _fields_ = [
        ("start_position", ctypes.c_uint64),
        ("stop_position", ctypes.c_uint64),
        ("skip", ctypes.c_uint64),
        ("flags", ctypes.c_uint64),
    ]


class RefusalStruct(ctypes.Structure):
    """binlog_refusal"""

    _fields_ = [
        ("log", ctypes.c_uint64),
        ("index", ctypes.c_uint64),
        ("position", ctypes.c_uint64),
        ("end", ctypes.c_uint64),
        ("reason", ctypes.c_uint32),
        ("is_skipped", ctypes.c_uint32),
    ]


class UndoneStruct(ctypes.Structure):
    """binlog_undone"""

    _fields_ = [
        ("transactions", ctypes.c_uint64),
        ("row_events", ctypes.c_uint64),
        ("refusals", ctypes.c_uint64),
    ]


class ColumnsFaultStruct(ctypes.Structure):
    """binlog_columns_fault"""

    _fields_ = [
        ("line", ctypes.c_uint64),
        ("column", ctypes.c_uint64),
        ("kind", ctypes.c_uint64),
    ]


class CacheStruct(ctypes.Structure):
    """binlog_cache"""

    _fields_ = [
        ("at", ctypes.c_void_p),
        ("is_kept", ctypes.c_bool),
    ]


class _BufferStruct(ctypes.Structure):
    """Py_buffer of Python's interface for C."""

    _fields_ = [
        ("buf", ctypes.c_void_p),
        ("obj", ctypes.c_void_p),
        ("len", ctypes.c_ssize_t),
        ("itemsize", ctypes.c_ssize_t),
        ("readonly", ctypes.c_int),
        ("ndim", ctypes.c_int),
        ("format", ctypes.c_void_p),
        ("shape", ctypes.c_void_p),
        ("strides", ctypes.c_void_p),
        ("suboffsets", ctypes.c_void_p),
        ("internal", ctypes.c_void_p),
    ]


def address_of(view: memoryview) -> ctypes.c_void_p:
    """Where the bytes of a view lie as long as it is there. ctypes itself says it of memory alone that may be written."""
    buffer = _BufferStruct()
    ctypes.pythonapi.PyObject_GetBuffer(ctypes.py_object(view), ctypes.byref(buffer), 0)
    address = ctypes.c_void_p(buffer.buf)
    ctypes.pythonapi.PyBuffer_Release(ctypes.byref(buffer))
    return address


def _path() -> str:
    """The variable's value, or the file beside this one, or what the system's linker finds."""
    stated = os.environ.get(VARIABLE)
    if stated:
        return stated
    beside = Path(__file__).with_name(FILE)
    if beside.exists():
        return str(beside)
    found = ctypes.util.find_library("binlog")
    if found is None:
        raise ImportError(
            f"{FILE} is not found: build it by bin/shared-library and set {VARIABLE} to its path"
        )
    return found


@cache
def _load() -> ctypes.CDLL:
    library = ctypes.CDLL(_path())
    byte, size, index = ctypes.c_uint8, ctypes.c_size_t, ctypes.c_uint64
    log = room = text = [ctypes.c_void_p, size]
    items = columns = name = [ctypes.c_char_p, size]
    item = ctypes.c_char_p
    cursor, fault = ctypes.POINTER(CursorStruct), ctypes.POINTER(ColumnsFaultStruct)
    sizes = refusals = [ctypes.c_void_p, size]
    options, undone = ctypes.POINTER(UndoOptionsStruct), ctypes.POINTER(UndoneStruct)
    error, count, kept = ctypes.POINTER(byte), ctypes.POINTER(size), ctypes.POINTER(CacheStruct)
    # The result and the parameters of each function.
    functions = {
        "library_version": (ctypes.c_uint32, []),
        "open": (byte, [*log, cursor]),
        "next": (size, [*log, cursor, *room, error]),
        "next_verified": (size, [*log, cursor, *room, error]),
        "rest": (size, [*log, cursor]),
        "json": (size, [*log, item, *items, index, *text, error]),
        "json_lines": (size, [*log, *items, *items, index, *text, count, error]),
        "json_lines_cached": (size, [*log, *items, *items, index, *text, kept, count, error]),
        "cache_free": (None, [kept]),
        "json_with_columns": (size, [*log, item, *items, *columns, index, *text, error]),
        "json_lines_with_columns": (size, [*log, *items, *items, *columns, index, *text, count, error]),
        "payload_log": (size, [*log, item, *text, error]),
        "columns_check": (byte, [*columns, fault]),
        "columns_contradiction": (size, [*log, item, *columns, error]),
        "columns_fault_text": (size, [ctypes.c_uint64, *name]),
        "undo": (size, [*log, *sizes, options, *columns, *columns, *refusals, undone, *text, error]),
        "error_name": (size, [byte, *name]),
        "error_text": (size, [byte, *name]),
    }
    for function, (result, parameters) in functions.items():
        exported = getattr(library, f"binlog_{function}")
        exported.restype, exported.argtypes = result, parameters
    return library


class _Library:
    """The functions of the library, which is loaded when one of them is called first. What needs none works without it."""

    def __getattr__(self, name: str) -> "ctypes._NamedFuncPointer":
        function = getattr(_load(), name)
        setattr(self, name, function)
        return function


LIBRARY = _Library()


@contextmanager
def line_cache() -> Iterator[CacheStruct]:
    """What lines of JSON have in common, kept from call to call. It is passed to one call at a time."""
    kept = CacheStruct()
    try:
        yield kept
    finally:
        LIBRARY.binlog_cache_free(kept)


def library_version() -> tuple[int, int, int]:
    """The version of the library: major, minor, patch."""
    number = LIBRARY.binlog_library_version()
    return number // 1_000_000, number // 1000 % 1000, number % 1000


def _written(write: "ctypes._NamedFuncPointer", error: int) -> str:
    room = write(error, None, 0) + 1
    text = ctypes.create_string_buffer(room)
    write(error, text, room)
    return text.value.decode("ascii")


def error_name(error: int) -> str:
    """The name of an error by its number; empty where no error has it."""
    return _written(LIBRARY.binlog_error_name, error)


def columns_fault_text(kind: int) -> str:
    """What is wrong in a text of a file of columns, by the kind of the fault; empty where none has the number."""
    return _written(LIBRARY.binlog_columns_fault_text, kind)


def error_text(error: int) -> str:
    """What an error means; empty where no error has the number."""
    return _written(LIBRARY.binlog_error_text, error)
