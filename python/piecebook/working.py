"""A book that is open all day: records come in and are withdrawn one at a time."""
from __future__ import annotations

import ctypes
import threading

from . import _library
from .book import Book
from .reading import refused
from .records import RECORD_BYTES, Answer, KindLike, Record, claim_of, number, pack, record_of, records_of

LARGEST_COUNT = 2**63 - 1


class WorkingBook:
    """Records that come and go. A record after which the book would be refused is not taken: Refused is raised and nothing is altered.

    Several threads may use one; each call is done before the next begins.
    """

    def __init__(self, book: Book | None = None) -> None:
        """Begins with the records of an accepted book, or with none."""
        if book is not None and not isinstance(book, Book):
            raise TypeError(f"a working book begins with a Book, not {type(book).__name__}")
        self._lock = threading.Lock()
        self._state = _library.Working()
        self._area = _library.octets(_library.AREA)
        self._do("start")
        if book is not None:
            self._state.pieces = book.pieces
            records = bytes(book)
            self._state.records = len(records) // RECORD_BYTES
            ctypes.memmove(self._area, records, len(records))

    def _do(self, name: str, *arguments: object):
        with self._lock:
            result = _library.call(name, self._state, self._area, *arguments)
        if result.number:
            raise refused(result.number, result.place)
        return result

    def __len__(self) -> int:
        return self._state.records

    def __bytes__(self) -> bytes:
        with self._lock:
            return bytes(self._area[: RECORD_BYTES * self._state.records])

    @property
    def pieces(self) -> int:
        """How many pieces the standing records have."""
        return self._state.pieces

    @property
    def records(self) -> list[Record]:
        """The standing records, in order."""
        return records_of(bytes(self))

    def add(self, kind: KindLike, a: int, b: int = 0, scanner: bool = False) -> None:
        """Adds a record behind the standing ones."""
        self._do("add", pack(record_of(kind, a, b, scanner)))

    def withdraw(self, record: int) -> None:
        """Withdraws the record of this number, from 0; later ones move down by one."""
        self._do("withdraw", number(record, "a record's number", LARGEST_COUNT))

    def ask(self, kind: KindLike, a: int, b: int, sheets: bool = False) -> Answer:
        """What the standing records say of a claim."""
        return Answer(self._do("ask", pack(claim_of(kind, a, b, sheets))).answer)

    def book(self) -> Book:
        """The standing records as a book."""
        return Book(bytes(self))
