"""What a user may hand over: values, text, or the bytes of a file; and where in a text a refusal points."""
from __future__ import annotations

import struct
from typing import Iterable, Iterator, Union

from . import _text
from .records import Claim, claims_of, pack_all
from .refusals import OF_CLAIMS, OF_RECORDS, Refused

MOST_ENTRIES = 32768

Claims = Union[str, bytes, Iterable[Union[Claim, tuple]]]
Log = Union[str, bytes, Iterable[int]]


def encoded(text: str | bytes) -> bytes:
    """The bytes of a text."""
    if isinstance(text, str):
        return text.encode("utf-8", "surrogateescape")
    if isinstance(text, bytes):
        return text
    raise TypeError(f"a text is str or bytes, not {type(text).__name__}")


def read_claims(claims: Claims) -> tuple[bytes, bytes | None]:
    """The bytes of the claims, and the text that they come from, if any."""
    if isinstance(claims, str) or isinstance(claims, bytes) and _text.is_text(claims):
        text = encoded(claims)
        return _text.read(text, _text.CLAIMS), text
    return claims if isinstance(claims, bytes) else pack_all(claims_of(claims)), None


def read_log(log: Log) -> tuple[Iterator[int], bytes | None]:
    """The entries of the log, and the text that they come from, if any."""
    if not isinstance(log, (str, bytes)):
        return iter(log), None
    text = encoded(log)
    entries = [entry for (entry,) in struct.iter_unpack("<H", _text.read(text, _text.LOG))]
    if len(entries) > MOST_ENTRIES:
        raise Refused(20, 0)
    return iter(entries), text


def refused(number: int, place: int, records: bytes | None = None, claims: bytes | None = None, book: int = 0) -> Refused:
    """A refusal, with the line of its place where the records, or the claims or the log, come from a text."""
    text = records if number in OF_RECORDS else claims if number in OF_CLAIMS else None
    return Refused(number, place, None if text is None else _text.line_of(text, place), book)
