"""A book of records: judged once, then asked."""
from __future__ import annotations

import os
from typing import Iterable, Iterator

from . import _library, _text
from .comparison import Comparison, compare
from .grid import Grid
from .reading import Claims, Log, encoded, read_claims, read_log, refused
from .records import RECORD_BYTES, Answer, Kind, KindLike, Record, checked_records, claim_of, number, pack, pack_all, records_of
from .refusals import CONTRADICTORY, Refused
from .replicates import Replicate, replicates
from .steps import Chain, Step, pack_steps, steps_of
from .tree import Tree, tree_of

MOST_RECORDS = 8192


class Book:
    """The records of a book, in order. Nothing alters a Book, and several threads may ask one at once.

    Every row of refusals but 14 is looked at when it is made. A contradictory book can be made, shown and asked for its
    `contradiction`; whatever else it is asked raises its refusal.
    """

    def __init__(self, records: bytes = b"") -> None:
        """The book of these bytes, six a record."""
        if not isinstance(records, bytes):
            raise TypeError(f"records are bytes, not {type(records).__name__}")
        self._judge(records, None)

    def _judge(self, records: bytes, text: bytes | None) -> None:
        """Takes the records, and the text that they were read from, if any: refusals name its lines."""
        self._records = records
        self._text = text
        parts = _library.index_parts()
        result = _library.call("index", records, *parts)
        refusal = refused(result.number, result.place, text) if result.number else None
        if refusal and refusal.number != CONTRADICTORY:
            raise refusal
        self._refusal = refusal
        self._counts = (result.pieces, result.nodes, result.shadows)
        self._parts = parts

    @classmethod
    def open(cls, path: str | os.PathLike) -> Book:
        """The book in a file, as text or as records."""
        with open(path, "rb") as file:
            data = file.read(_text.LONGEST + 1)
        if _text.is_text(data):
            return cls.from_text(data)
        return cls.from_records(data[: (MOST_RECORDS + 1) * RECORD_BYTES])

    @classmethod
    def from_text(cls, text: str | bytes) -> Book:
        """The book of a text. A text that cannot be read raises Unread."""
        data = encoded(text)
        book = cls.__new__(cls)
        book._judge(_text.read(data, _text.RECORDS), data)
        return book

    @classmethod
    def from_records(cls, records: bytes | Iterable[Record | tuple]) -> Book:
        """The book of these bytes, six a record, or of these records, each a Record or a tuple (kind, a, b, scanner)."""
        if isinstance(records, (bytes, bytearray)):
            return cls(bytes(records))
        return cls(pack_all(checked_records(records)))

    @classmethod
    def convert(cls, former: bytes) -> Book:
        """The book of the former edition in these bytes, without its TRAY records."""
        if not isinstance(former, (bytes, bytearray)):
            raise TypeError(f"records are bytes, not {type(former).__name__}")
        out = _library.octets(max(len(former), RECORD_BYTES))
        result = _library.call("convert", bytes(former), out)
        if result.number:
            raise refused(result.number, result.place)
        return cls(bytes(out[: result.length]))

    def __bytes__(self) -> bytes:
        return self._records

    def __str__(self) -> str:
        return _text.show(self._records)

    def __eq__(self, other: object) -> bool:
        return self._records == other._records if isinstance(other, Book) else NotImplemented

    def __hash__(self) -> int:
        return hash(self._records)

    def __repr__(self) -> str:
        return f"<Book of {len(self._records) // RECORD_BYTES} records>"

    @property
    def records(self) -> list[Record]:
        """The records, in order."""
        return records_of(self._records)

    @property
    def refusal(self) -> Refused | None:
        """The refusal of a contradictory book; None for an accepted one."""
        return self._refusal

    @property
    def pieces(self) -> int:
        """How many pieces the book has: 0 up to the largest number named."""
        return self._accepted()._counts[0]

    @property
    def nodes(self) -> int:
        """How many nodes its tree has, shadows counted."""
        return self._accepted()._counts[1]

    @property
    def shadows(self) -> int:
        """How many shadows its tree has."""
        return self._accepted()._counts[2]

    @property
    def void(self) -> list[int]:
        """The pieces that hold no ice, rising."""
        return sorted({record.a for record in self.records if record.kind is Kind.VOID})

    def _accepted(self) -> Book:
        if self._refusal:
            raise refused(self._refusal.number, self._refusal.place, self._text)
        return self

    def ask(self, kind: KindLike, a: int, b: int, sheets: bool = False) -> Answer:
        """Whether the claim follows, is denied, or is open; from all facts, or from those of cutting sheets only."""
        return self.ask_all([claim_of(kind, a, b, sheets)])[0]

    def ask_all(self, claims: Claims) -> list[Answer]:
        """The answers to up to 4,096 claims: Claims or tuples, the text of a claim file, or its bytes in either form."""
        data, text = read_claims(claims)
        answers = _library.octets(max(len(data) // RECORD_BYTES, 1))
        result = _library.call("answer", self._records, data, *_library.index_parts(), answers)
        if result.number:
            raise refused(result.number, result.place, self._text, text)
        return [Answer(answer) for answer in answers[: len(data) // RECORD_BYTES]]

    def why(self, kind: KindLike, a: int, b: int, sheets: bool = False) -> Chain:
        """The steps behind the answer to a claim; none where it is open."""
        claim = claim_of(kind, a, b, sheets)
        steps = _library.octets(_library.STEPS * _library.STEP_BYTES)
        result = _library.call("chain", self._records, pack(claim), steps)
        if result.number:
            raise refused(result.number, result.place, self._text)
        return Chain(steps_of(bytes(steps)[: result.steps * _library.STEP_BYTES]), claim, Answer(result.answer))

    def contradiction(self) -> Chain:
        """The steps behind refusal 14, the last of which shows the opposite of the record at its place; none for an accepted book."""
        steps = _library.octets(_library.STEPS * _library.STEP_BYTES)
        result = _library.call("clash", self._records, steps)
        return Chain(steps_of(bytes(steps)[: result.steps * _library.STEP_BYTES]))

    def passes(self, steps: Iterable[Step], kind: KindLike, a: int, b: int, sheets: bool = False) -> bool:
        """Whether steps, whoever wrote them, are a chain behind the answer to the claim."""
        claim = claim_of(kind, a, b, sheets)
        return bool(_library.call("chain_check", self._records, pack(claim), pack_steps(steps)))

    def contradicted_by(self, steps: Iterable[Step]) -> bool:
        """Whether steps, whoever wrote them, are a chain behind the book's refusal 14."""
        return bool(_library.call("clash_check", self._records, pack_steps(steps)))

    def inside(self, piece: int) -> list[int]:
        """All pieces that certainly are PART of this one, rising."""
        return self._listed(Kind.PART, piece)

    def touching(self, piece: int) -> list[int]:
        """All pieces that certainly MEET this one, rising."""
        return self._listed(Kind.MEETS, piece)

    def apart(self, piece: int) -> list[int]:
        """All pieces that certainly are APART from this one, rising."""
        return self._listed(Kind.APART, piece)

    def _listed(self, kind: Kind, piece: int) -> list[int]:
        which = number(piece, "a piece")
        found = _library.numbers(_library.LIST)
        areas = [_library.numbers(_library.PAIRS) for _ in range(3)]
        result = _library.call("catalog", self._records, kind, which, *_library.index_parts(), found, *areas)
        if result.number:
            raise refused(result.number, result.place, self._text)
        return found[: result.listed]

    def grid(self) -> Grid:
        """What follows of every two pieces, for a book of at most 64."""
        result = _library.call("grid", self._records)
        if result.number:
            raise refused(result.number, result.place, self._text)
        kinds = (Kind.PART, Kind.APART, Kind.MEETS, Kind.NOTPART)
        return Grid(self.pieces, {kind: tuple(getattr(result, kind.name.lower())) for kind in kinds})

    def tree(self) -> Tree:
        """The tree that the index tells: groups and shadows."""
        return tree_of(self.pieces, self.nodes, self._parts)

    def replicates(self, log: Log) -> Iterator[Replicate]:
        """What the measurement log, of any length, gives for each entry: piece numbers, or text of up to 32,768 entries."""
        self._accepted()
        return replicates(self._records, *read_log(log))

    def compare(self, other: Book, claims: Claims = ()) -> Comparison:
        """This book and another of the same core under the same numbers, claim by claim."""
        if not isinstance(other, Book):
            raise TypeError(f"a book is compared with a Book, not {type(other).__name__}")
        data, text = read_claims(claims)
        result, comparison = compare(self._records, other._records, data)
        if comparison is None:
            own = other._text if result.book == 2 else self._text
            raise refused(result.number, result.place, own, text, result.book)
        return comparison
