"""The grids of a book of at most 64 pieces, and the one sign that they give each pair."""
from __future__ import annotations

from typing import Mapping

from .records import Kind, KindLike, claim_of

LARGEST = 64
# what each sign says of a row's piece and a column's
SIGNS = {
    "=": "the same ice",
    "<": "row inside column",
    ">": "column inside row",
    "|": "share no ice",
    "x": "overlap, neither inside the other",
    "o": "share ice",
    ".": "open",
    "v": "void",
}


class Grid:
    """For each kind and each two pieces of the book whether the claim follows from all facts."""

    def __init__(self, pieces: int, rows: Mapping[Kind, tuple[int, ...]]) -> None:
        self.pieces = pieces
        self.rows = rows

    def follows(self, kind: KindLike, a: int, b: int) -> bool:
        """Whether the claim follows."""
        claim = claim_of(kind, a, b)
        if max(claim.a, claim.b) >= self.pieces:
            raise ValueError(f"the grid has pieces 0 to {self.pieces - 1}")
        return bool(self.rows[claim.kind][claim.a] >> claim.b & 1)

    def void(self, a: int) -> bool:
        """Whether piece a holds no ice."""
        return self.follows(Kind.APART, a, a)

    def sign(self, a: int, b: int) -> str:
        """The sign of SIGNS that tells most of a and b."""
        if self.void(a) or self.void(b):
            return "v"
        inside, around = self.follows(Kind.PART, a, b), self.follows(Kind.PART, b, a)
        if inside or around:
            return "=" if inside and around else "<" if inside else ">"
        if self.follows(Kind.APART, a, b):
            return "|"
        if not self.follows(Kind.MEETS, a, b):
            return "."
        return "x" if self.follows(Kind.NOTPART, a, b) and self.follows(Kind.NOTPART, b, a) else "o"

    def __str__(self) -> str:
        columns = range(self.pieces)
        lines = [f"PIECES {self.pieces}"]
        if self.pieces > 10:
            lines.append("   " + "".join(str(b // 10) if b > 9 else " " for b in columns))
        lines.append("   " + "".join(str(b % 10) for b in columns))
        lines += [f"{a:2} " + "".join(self.sign(a, b) for b in columns) for a in columns]
        return "\n".join(lines)
