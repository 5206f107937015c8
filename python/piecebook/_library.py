"""The shared library: where it is found, how its calls are declared, and the workspace of each thread.

Nothing is checked here: what the modules above hand over has the types and lengths that include/piecebook.h asks for.
"""
from __future__ import annotations

import ctypes
import functools
import os
import pathlib
import threading
from ctypes import POINTER, Structure, c_char_p, c_size_t, c_uint8, c_uint16, c_uint64

FILE = "libpiecebook.so"
VARIABLE = "PIECEBOOK_LIBRARY"
PARENTHESES, MARKS, SHADOWS, PLACES = 2560, 1280, 8192, 2048
LIST, PAIRS = 2048, 16384
AREA = 49152
STEP_BYTES = 10
STEPS = 16400
WINDOW = 31
GRID = 64
# the room that the entries of a text may take, and that the line of a shown record may
RECORD_TEXT, CLAIM_TEXT, LOG_TEXT = 49158, 24582, 65538
SHOWN = 28
MATRIX = 65536
MATRICES = 6
# what a call may take of its thread's stack
STACK = 2**20


class LibraryMissing(ImportError):
    """The shared library cannot be loaded; the message says how to make it."""


def _counts(name: str, *fields: str) -> type[Structure]:
    return type(name, (Structure,), {"_fields_": [(field, c_size_t) for field in fields]})


Result = _counts("Result", "number", "place", "pieces", "nodes", "shadows")
Converted = _counts("Converted", "number", "place", "length")
Working = _counts("Working", "records", "pieces")
WorkingResult = _counts("WorkingResult", "number", "place", "answer")
Cataloged = _counts("Cataloged", "number", "place", "pieces", "nodes", "shadows", "listed", "meets", "apart", "notpart")
Compared = _counts("Compared", "number", "place", "book", "together")
Chained = _counts("Chained", "number", "place", "answer", "steps")
Clashed = _counts("Clashed", "number", "place", "steps")
Read = _counts("Read", "number", "line", "length")
Shown = _counts("Shown", "number", "length")


class Grids(Structure):
    _fields_ = [("number", c_size_t), ("place", c_size_t)] + [
        (kind, c_uint64 * GRID) for kind in ("part", "apart", "meets", "notpart")
    ]


class Window(Structure):
    _fields_ = [("pieces", c_uint16 * WINDOW), ("count", c_size_t)]


class Replicated(Structure):
    _fields_ = [("number", c_size_t), ("place", c_size_t), ("window", Window)]


_IN = [c_char_p, c_size_t]
_OUT = [POINTER(c_uint8), c_size_t]
_NUMBERS = [POINTER(c_uint16), c_size_t]
_INDEX = _OUT + _OUT + _NUMBERS + _NUMBERS
_STATE = [POINTER(Working)]

# each call's result, its arguments before the matrices, and how many matrices it takes: calls on text take none
_CALLS = {
    "answer": (Result, _IN + _IN + _INDEX + _OUT, 6),
    "index": (Result, _IN + _INDEX, 6),
    "grid": (Grids, _IN, 3),
    "start": (WorkingResult, _STATE + _OUT, 3),
    "add": (WorkingResult, _STATE + _OUT + _IN, 3),
    "withdraw": (WorkingResult, _STATE + _OUT + [c_size_t], 3),
    "ask": (WorkingResult, _STATE + _OUT + _IN, 6),
    "convert": (Converted, _IN + _OUT, 3),
    "catalog": (Cataloged, _IN + [c_size_t, c_size_t] + _INDEX + _NUMBERS * 4, 3),
    "replicates": (Replicated, _IN + [Window] + _IN + _OUT, 4),
    "compare": (Compared, _IN + _IN + _IN + _OUT, 6),
    "chain": (Chained, _IN + _IN + _OUT, 3),
    "chain_check": (c_size_t, _IN + _IN + _IN, 3),
    "clash": (Clashed, _IN + _OUT, 3),
    "clash_check": (c_size_t, _IN + _IN, 3),
    "read_text": (Read, [c_size_t] + _IN + _OUT, 0),
    "text_line": (c_size_t, _IN + [c_size_t], 0),
    "show": (Shown, _IN + _OUT, 0),
}


def path() -> pathlib.Path:
    """Where the library is looked for: where the variable says, else beside the package."""
    named = os.environ.get(VARIABLE)
    return pathlib.Path(named) if named else pathlib.Path(__file__).resolve().with_name(FILE)


@functools.lru_cache(maxsize=None)
def _function(name: str):
    """One call of the library, declared."""
    result, arguments, matrices = _CALLS[name]
    symbol = f"piecebook_{name}_with" if matrices else f"piecebook_{name}"
    where = path()
    hint = f"run 'rt lib' in crates/piecebook and then 'python/build', or set {VARIABLE} to the library's file"
    try:
        function = getattr(ctypes.CDLL(str(where)), symbol)
    except OSError as problem:
        raise LibraryMissing(f"the piece book's library cannot be loaded from {where}: {problem}; {hint}") from None
    except AttributeError:
        raise LibraryMissing(f"{where} has no call {name!r}: it is of another edition; {hint}") from None
    function.restype = result
    function.argtypes = arguments + [POINTER(c_uint64)] * matrices
    return function


class _Workspace(threading.local):
    """The matrices that calls work in. Each thread has its own, since calls of several threads run at once."""

    def __init__(self) -> None:
        small = 0 < threading.stack_size() < STACK
        if small and threading.current_thread() is not threading.main_thread():
            raise RuntimeError(f"a call takes {STACK} bytes of stack: give threads more by threading.stack_size before they start")
        self.matrices = [(c_uint64 * MATRIX)() for _ in range(MATRICES)]


_workspace = _Workspace()


def call(name: str, *arguments: object):
    """Calls the library with this thread's matrices; bytes and arrays go with their lengths."""
    flat: list[object] = []
    for argument in arguments:
        flat.append(argument)
        if isinstance(argument, (bytes, ctypes.Array)):
            flat.append(len(argument))
    count = _CALLS[name][2]
    matrices = _workspace.matrices[:count] if count else []
    return _function(name)(*flat, *matrices)


def octets(length: int) -> ctypes.Array:
    """Bytes to write to."""
    return (c_uint8 * length)()


def numbers(length: int) -> ctypes.Array:
    """16-bit numbers to write to."""
    return (c_uint16 * length)()


def index_parts() -> list[ctypes.Array]:
    """Parentheses, marks, shadow list and place list to write to."""
    return [octets(PARENTHESES), octets(MARKS), numbers(SHADOWS), numbers(PLACES)]
