"""What two books of one core say of the same claims."""
from __future__ import annotations

from typing import NamedTuple

from . import _library
from .records import RECORD_BYTES, Answer, Claim, records_of

AGREEMENTS = ("SAME", "ONE OPEN", "OPPOSED")


class Agreement(NamedTuple):
    """A claim, both books' answers, and SAME, ONE OPEN or OPPOSED."""

    claim: Claim
    first: Answer
    second: Answer
    agreement: str


class Comparison(NamedTuple):
    """Whether one layout of the ice can keep the records of both books, and what they say of each claim."""

    together: bool
    claims: list[Agreement]


def compare(first: bytes, second: bytes, claims: bytes) -> tuple[_library.Compared, Comparison | None]:
    """The library's result, and the comparison where it is no refusal."""
    out = _library.octets(max(3 * (len(claims) // RECORD_BYTES), 1))
    result = _library.call("compare", first, second, claims, out)
    if result.number:
        return result, None
    rows = [
        Agreement(Claim(*record), Answer(out[3 * k]), Answer(out[3 * k + 1]), AGREEMENTS[out[3 * k + 2] - 1])
        for k, record in enumerate(records_of(claims))
    ]
    return result, Comparison(bool(result.together), rows)
