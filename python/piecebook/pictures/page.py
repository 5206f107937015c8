"""One HTML page of a book, which loads nothing from elsewhere."""
from __future__ import annotations

from ..book import Book
from ..grid import LARGEST
from ..records import Claim, Record
from ..steps import Chain
from . import svg
from .chain import chain_svg
from .grid import grid_svg
from .tree import tree_svg

STYLE = """
body { margin: 2rem auto; max-width: 84rem; padding: 0 1rem; font: 15px/1.5 "DejaVu Sans", Verdana, sans-serif; color: #17354a; }
h1 { font-size: 1.5rem; } h2 { font-size: 1.15rem; margin-top: 2rem; }
.sheet { overflow: auto; max-height: 85vh; border: 1px solid #c9d6df; border-radius: 6px; }
.sheet svg { display: block; }
table { border-collapse: collapse; } th, td { padding: .15rem .9rem .15rem 0; text-align: left; } td.number { text-align: right; }
table.records { margin: 0 1rem .5rem; } table.records td { border-top: 1px solid #e4ebf0; }
table.records th { position: sticky; top: 0; background: #fff; }
pre { overflow: auto; max-height: 40vh; background: #f3f7fa; padding: .8rem; border-radius: 6px; }
.refusal { border-left: 4px solid #d55e00; padding-left: .8rem; }
"""


def _section(heading: str, body: str) -> str:
    return f"<section><h2>{svg.escaped(heading)}</h2>\n{body}</section>"


def _sheet(picture: str) -> str:
    return f'<div class="sheet" tabindex="0">\n{picture}</div>\n'


def _counts(book: Book) -> str:
    counts = [("records", len(book.records)), ("pieces", book.pieces), ("groups of several pieces", len(book.tree().groups))]
    counts += [("nodes", book.nodes), ("shadows", book.shadows), ("void pieces", len(book.void))]
    rows = "".join(f'<tr><th scope="row">{name}</th><td class="number">{count}</td></tr>\n' for name, count in counts)
    return f"<table>\n{rows}</table>\n"


def _records(records: list[Record]) -> str:
    rows = []
    for number, record in enumerate(records):
        second = "" if record.kind.name == "VOID" else record.b
        origin = "scanner" if record.scanner else "sheet"
        numbers = f'<td class="number">{number}</td><td>{record.kind.name}</td><td class="number">{record.a}</td><td class="number">{second}</td>'
        rows.append(f"<tr>{numbers}<td>{origin}</td></tr>\n")
    head = '<tr><th scope="col">record</th><th scope="col">kind</th><th scope="col">a</th><th scope="col">b</th><th scope="col">origin</th></tr>\n'
    return f'<div class="sheet" tabindex="0"><table class="records">\n{head}{"".join(rows)}</table></div>\n'


def _chain(chain: Chain) -> str:
    drawn = _sheet(chain_svg(chain)) if chain else "<p>The records leave this claim open.</p>\n"
    return drawn + f"<pre>{svg.escaped(str(chain))}</pre>\n"


def _accepted(book: Book, claim: Claim | None, name: svg.Name) -> list[str]:
    sections = [_section("Counts", _counts(book))]
    if claim is not None:
        chain = book.why(*claim)
        sections.append(_section(f"Why {claim} {chain.answer.name}", _chain(chain)))
    sections.append(_section("What lies in what", _sheet(tree_svg(book, name))))
    if book.pieces <= LARGEST:
        sections.append(_section("Every two pieces", _sheet(grid_svg(book, name))))
    return sections


def _refused(book: Book) -> list[str]:
    place = book.refusal.place
    told = f'<p class="refusal">{svg.escaped(str(book.refusal))}</p>\n'
    told += f"<p>Record {place} says {book.records[place]}. From the records before it, and the void pieces, the opposite follows:</p>\n"
    return [_section("The records contradict each other", told + _chain(book.contradiction()))]


def page_html(book: Book, claim: Claim | None = None, title: str = "The piece book", name: svg.Name = str) -> str:
    """A page of the book: counts, the chain behind the claim's answer, tree, grid for at most 64 pieces, and records.

    Of a contradictory book it has the refusal and the chain behind it.
    """
    sections = _accepted(book, claim, name) if svg.checked(book).refusal is None else _refused(book)
    sections.append(_section("Records", _records(book.records)))
    shown = svg.escaped(title)
    head = f'<meta charset="utf-8">\n<meta name="viewport" content="width=device-width">\n<title>{shown}</title>\n<style>{STYLE}</style>'
    return f'<!DOCTYPE html>\n<html lang="en">\n<head>\n{head}\n</head>\n<body>\n<h1>{shown}</h1>\n{"".join(sections)}</body>\n</html>\n'
