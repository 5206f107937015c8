"""The measurement log: which entries are independent replicates."""
from __future__ import annotations

import itertools
import struct
from typing import Iterator, NamedTuple

from . import _library
from .reading import MOST_ENTRIES, refused
from .records import number


class Replicate(NamedTuple):
    """An entry of the log: how many of the up to 31 before it are certainly APART from it, and whether every two of these and it are."""

    piece: int
    apart: int
    independent: bool


def replicates(records: bytes, log: Iterator[int], text: bytes | None) -> Iterator[Replicate]:
    """What a book's records give for each entry of a log of any length, which is sent in parts."""
    window = _library.Window()
    sent = 0
    while part := [number(entry, "an entry") for entry in itertools.islice(log, MOST_ENTRIES)]:
        out = _library.octets(2 * len(part))
        result = _library.call("replicates", records, window, struct.pack(f"<{len(part)}H", *part), out)
        if result.number:
            raise refused(result.number, sent + result.place, claims=text)
        yield from (Replicate(piece, out[2 * k], bool(out[2 * k + 1])) for k, piece in enumerate(part))
        window = result.window
        sent += len(part)
