"""The steps of a chain: what a book's answer to a claim, or its contradiction, rests on."""
from __future__ import annotations

import struct
from typing import Iterable, NamedTuple

from ._library import STEP_BYTES
from .records import Answer, Claim, Kind

_LAYOUT = struct.Struct("<BBHHHH")
STORED = 0
# the rules by their code, from 1
RULES = ("a", "b", "c", "f", "a'", "b'", "c'", "d'", "e'", "d", "e")
BY_A_MARK = frozenset({"d", "e"})
WITHOUT_PREMISES = frozenset({"c", "f", "e'"})


class Step(NamedTuple):
    """One step: what it shows, and either the record it cites or the rule and the earlier steps it follows from."""

    number: int
    kind: Kind
    a: int
    b: int
    rule: str | None
    record: int | None
    premises: tuple[int, ...]

    def __str__(self) -> str:
        words = [str(self.number), self.shown]
        words += [] if self.rule is None else ["RULE", self.rule]
        words += [] if self.record is None else ["RECORD", str(self.record)]
        words += ["FROM", *map(str, self.premises)] if self.premises else []
        return " ".join(words)

    @property
    def shown(self) -> str:
        """The kind and the pieces that the step shows."""
        return f"{self.kind.name} {self.a} {self.b}"


class Chain(list):
    """The steps behind an answer, in order; each premise stands earlier than its use. `str` gives the page that the program prints.

    `claim` and `answer` are None for the chain behind a contradiction.
    """

    def __init__(self, steps: Iterable[Step], claim: Claim | None = None, answer: Answer | None = None) -> None:
        super().__init__(steps)
        self.claim = claim
        self.answer = answer

    def __str__(self) -> str:
        heading = [] if self.claim is None or self.answer is None else [f"{self.claim} {self.answer.name}"]
        return "\n".join(heading + [str(step) for step in self])


def _read(number: int, fields: tuple[int, ...]) -> Step:
    code, kind, a, b, first, second = fields
    rule = None if code == STORED else RULES[code - 1]
    cites = rule is None or rule in BY_A_MARK
    premises = () if cites or rule in WITHOUT_PREMISES else (first, second)
    return Step(number, Kind(kind), a, b, rule, first if cites else None, premises)


def steps_of(data: bytes) -> list[Step]:
    """The steps that the library wrote."""
    return [_read(number, fields) for number, fields in enumerate(_LAYOUT.iter_unpack(data))]


def pack_steps(steps: Iterable[Step]) -> bytes:
    """The steps as the library reads them."""
    packed = []
    for step in steps:
        if not isinstance(step, Step):
            raise TypeError(f"a step is a Step, not {type(step).__name__}")
        packed.append(_pack(step))
    return b"".join(packed)


def _pack(step: Step) -> bytes:
    code = STORED if step.rule is None else RULES.index(step.rule) + 1
    cited = (0 if step.record is None else step.record,)
    first, second = (*(step.premises or cited), 0, 0)[:2]
    try:
        return _LAYOUT.pack(code, step.kind, step.a, step.b, first, second)
    except struct.error:
        raise ValueError(f"a step's numbers are from 0 to 65535: {step}") from None


assert _LAYOUT.size == STEP_BYTES
