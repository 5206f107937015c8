"""Records and claims: their kinds, their six bytes and their text."""
from __future__ import annotations

import operator
import struct
from enum import IntEnum
from typing import Iterable, NamedTuple, Union

RECORD_BYTES = 6
LARGEST_NUMBER = 65535
_LAYOUT = struct.Struct("<BBHH")


class Kind(IntEnum):
    """What a record or a claim says of a and b."""

    PART = 1
    APART = 2
    MEETS = 3
    NOTPART = 4
    VOID = 6

    def __str__(self) -> str:
        return self.name


class Answer(IntEnum):
    """What a book says of a claim."""

    FOLLOWS = 1
    DENIED = 2
    OPEN = 3

    def __str__(self) -> str:
        return self.name


KindLike = Union[Kind, int, str]


class Record(NamedTuple):
    """A stored fact, or with VOID the mark of a piece without ice, whose b is 0."""

    kind: Kind
    a: int
    b: int = 0
    scanner: bool = False

    def __str__(self) -> str:
        words = [self.kind.name, str(self.a)]
        words += [] if self.kind is Kind.VOID else [str(self.b)]
        return " ".join(words + ["scanner"] * self.scanner)


class Claim(NamedTuple):
    """A claim about two pieces, answered from all facts or from those of cutting sheets only."""

    kind: Kind
    a: int
    b: int
    sheets: bool = False

    def __str__(self) -> str:
        return " ".join([self.kind.name, str(self.a), str(self.b)] + ["sheets"] * self.sheets)


def number(value: object, what: str, largest: int = LARGEST_NUMBER) -> int:
    """A whole number from 0 to the largest, or TypeError or ValueError."""
    if isinstance(value, bool):
        raise TypeError(f"{what} is a number, not {value!r}")
    try:
        whole = operator.index(value)  # type: ignore[arg-type]
    except TypeError:
        raise TypeError(f"{what} is a number, not {type(value).__name__}") from None
    if not 0 <= whole <= largest:
        raise ValueError(f"{what} is from 0 to {largest}, not {whole}")
    return whole


def flag(value: object, what: str) -> bool:
    """True or False, or TypeError."""
    if not isinstance(value, bool):
        raise TypeError(f"{what} is True or False, not {value!r}")
    return value


def kind_of(value: KindLike) -> Kind:
    """A kind by its name in letters of either case, or by its number."""
    if isinstance(value, str):
        if not value.isascii() or value.upper() not in Kind.__members__:
            raise ValueError(f"{value!r} is not a kind: {', '.join(Kind.__members__)}")
        return Kind[value.upper()]
    whole = number(value, "a kind")
    if whole not in list(Kind):
        raise ValueError(f"{whole} is not the number of a kind")
    return Kind(whole)


def record_of(kind: KindLike, a: int, b: int = 0, scanner: bool = False) -> Record:
    """A record, its arguments checked."""
    return Record(kind_of(kind), number(a, "a"), number(b, "b"), flag(scanner, "scanner"))


def claim_of(kind: KindLike, a: int, b: int, sheets: bool = False) -> Claim:
    """A claim, its arguments checked."""
    which = kind_of(kind)
    if which is Kind.VOID:
        raise ValueError("VOID is a mark: a claim is PART, APART, MEETS or NOTPART")
    return Claim(which, number(a, "a"), number(b, "b"), flag(sheets, "sheets"))


def checked_records(records: Iterable[Record | tuple]) -> list[Record]:
    """Records, each checked; each is a Record or a tuple (kind, a), (kind, a, b) or (kind, a, b, scanner)."""
    checked = []
    for record in records:
        if not isinstance(record, tuple) or len(record) not in (2, 3, 4):
            raise TypeError(f"a record is (kind, a, b) or (kind, a, b, scanner), not {record!r}")
        checked.append(record_of(*record))
    return checked


def claims_of(claims: Iterable[Claim | tuple]) -> list[Claim]:
    """Claims, each checked; each is a Claim or a tuple (kind, a, b) or (kind, a, b, sheets)."""
    checked = []
    for claim in claims:
        if not isinstance(claim, tuple) or len(claim) not in (3, 4):
            raise TypeError(f"a claim is (kind, a, b) or (kind, a, b, sheets), not {claim!r}")
        checked.append(claim_of(*claim))
    return checked


def pack(entry: Record | Claim) -> bytes:
    """The six bytes of a record or a claim."""
    return _LAYOUT.pack(entry.kind, entry[3], entry.a, entry.b)


def pack_all(entries: Iterable[Record | Claim]) -> bytes:
    """The bytes of records or claims, one behind the other."""
    return b"".join(map(pack, entries))


def records_of(data: bytes) -> list[Record]:
    """The records of a book that passes its rows."""
    return [Record(Kind(kind), a, b, bool(origin)) for kind, origin, a, b in _LAYOUT.iter_unpack(data)]
