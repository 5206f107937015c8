"""Books, claims and logs as text: the library reads them into the bytes that its other calls take, and shows a book."""
from __future__ import annotations

import ctypes
from typing import NamedTuple

from . import _library, refusals
from .records import RECORD_BYTES
from .refusals import NOT_FACTS, REASONS, Unread

LONGEST = 524288
# no record that passes its rows begins with a byte so high
FIRST_OF_TEXT = 9
NO_CHOICE = 3


class Form(NamedTuple):
    """What a text is read as: how a page calls it, its number in the library, and the room that its entries may take."""

    source: str
    number: int
    room: int


RECORDS = Form("", 0, _library.RECORD_TEXT)
CLAIMS = Form("CLAIMS ", 1, _library.CLAIM_TEXT)
LOG = Form("LOG ", 2, _library.LOG_TEXT)
# a claim in the arguments of a command
WORDS = Form(refusals.WORDS, 1, _library.CLAIM_TEXT)


def is_text(data: bytes) -> bool:
    """Whether a book or a list of claims is text; if not, it is records."""
    return len(data) > 0 and data[0] >= FIRST_OF_TEXT


def read(text: bytes, form: Form) -> bytes:
    """The entries of a text, one for each line with words, or Unread."""
    out = _library.octets(form.room)
    result = _library.call("read_text", form.number, text, out)
    if result.number:
        sentence = NOT_FACTS if result.number == NO_CHOICE and form.number == CLAIMS.number else REASONS[result.number]
        raise Unread(result.line, result.number, sentence, form.source)
    return ctypes.string_at(out, result.length)


def line_of(text: bytes, place: int) -> int:
    """The line of the entry at a place, from 1."""
    return _library.call("text_line", text, place)


def show(records: bytes) -> str:
    """The text of a book, one line a record."""
    page = _library.octets(_library.SHOWN * (len(records) // RECORD_BYTES))
    result = _library.call("show", records, page)
    return ctypes.string_at(page, result.length).decode("ascii")
