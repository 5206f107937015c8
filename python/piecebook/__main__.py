"""Pictures from the command line: python3 -m piecebook tree|grid|chain|page BOOK .."""
from __future__ import annotations

import argparse
import os
import sys

from . import _text
from ._library import LibraryMissing
from .book import Book
from .pictures import chain_svg, grid_svg, page_html, tree_svg
from .reading import encoded
from .records import Claim, records_of
from .refusals import Refused, Unread


def _parser() -> argparse.ArgumentParser:
    parser = argparse.ArgumentParser(prog="python3 -m piecebook", description="Pictures of a book of pieces, as SVG, and a page of it, as HTML.")
    parser.add_argument("picture", choices=["tree", "grid", "chain", "page"])
    parser.add_argument("book", metavar="BOOK", help="the book's file, text or records")
    parser.add_argument("claim", nargs="*", metavar="CLAIM", help="for chain and page: KIND a b, or KIND a b sheets")
    parser.add_argument("-o", "--output", metavar="FILE", help="where to write; standard output if left out")
    return parser


def _claim(words: list[str]) -> Claim | None:
    """The claim in the arguments, read as one line of text; Unread where it is none."""
    line = " ".join(words).replace("\n", " ")
    read = _text.read(encoded(line), _text.WORDS)
    return Claim(*records_of(read)[0]) if read else None


def _drawn(picture: str, path: str, claim: Claim | None) -> str:
    book = Book.open(path)
    if picture == "chain":
        return chain_svg(book.contradiction() if claim is None else book.why(*claim))
    if picture == "page":
        return page_html(book, claim, os.path.basename(path))
    if claim is not None:
        raise ValueError(f"{picture} takes no claim")
    return tree_svg(book) if picture == "tree" else grid_svg(book)


def _write(text: str, output: str | None) -> None:
    if output is None:
        sys.stdout.buffer.write(text.encode())
        sys.stdout.buffer.flush()
        return
    with open(output, "w", encoding="utf-8", newline="\n") as file:
        file.write(text)


def main(arguments: list[str] | None = None) -> int:
    """Writes the picture; 1 for a refusal, 2 for what cannot be done, each told on standard error."""
    options = _parser().parse_args(arguments)
    try:
        _write(_drawn(options.picture, options.book, _claim(options.claim)), options.output)
    except (Refused, Unread) as told:
        print(told, file=sys.stderr)
        return 1
    except (OSError, ValueError, LibraryMissing) as problem:
        print(problem, file=sys.stderr)
        return 2
    return 0


if __name__ == "__main__":
    sys.exit(main())
