#!/usr/bin/env python3
"""Writes book.rec and claims, the book and the claims of document 01's printed session, beside this script."""
import pathlib
import struct

KINDS = {"PART": 1, "APART": 2, "MEETS": 3, "NOTPART": 4}

BOOK = "PART 1 0, PART 2 0, PART 3 1, PART 4 1, PART 4 2, PART 5 4, APART 3 4, MEETS 3 2, NOTPART 2 1"
CLAIMS = (
    "PART 5 2, PART 2 1, PART 3 2, APART 3 5, APART 1 2, MEETS 2 3, NOTPART 2 4, NOTPART 1 3, NOTPART 0 1, PART 1 2"
)


def records(text):
    """Six bytes each: the kind, zero, a and b, low byte first."""
    for entry in text.split(", "):
        kind, a, b = entry.split()
        yield struct.pack("<BBHH", KINDS[kind], 0, int(a), int(b))


if __name__ == "__main__":
    here = pathlib.Path(__file__).resolve().parent
    (here / "book.rec").write_bytes(b"".join(records(BOOK)))
    (here / "claims").write_bytes(b"".join(records(CLAIMS)))
