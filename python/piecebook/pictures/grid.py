"""Every pair of a season's pieces on one coloured sheet."""
from __future__ import annotations

from ..book import Book
from ..grid import SIGNS
from . import svg

CELL = 20
# a little air before every tenth piece
AIR = 4
TENTH = 10
# colours that stay apart for the colour-blind, and the ink of the sign upon each
COLOURS = {
    "=": ("#17354a", "#fff"),
    "<": ("#0072b2", "#fff"),
    ">": ("#9fd0ee", svg.INK),
    "|": ("#f5cf85", svg.INK),
    "x": ("#a3487f", "#fff"),
    "o": ("#e8bfd6", svg.INK),
    ".": ("#f3f3f3", "#8a8a8a"),
}
SPOKEN = {
    "=": "{a} and {b} are the same ice",
    "<": "{a} lies wholly in {b}",
    ">": "{b} lies wholly in {a}",
    "|": "{a} and {b} share no ice",
    "x": "{a} and {b} share ice, and neither lies wholly in the other",
    "o": "{a} and {b} share ice",
    ".": "{a} and {b}: open",
}


def _symbols() -> list[str]:
    """One cell for each sign, drawn where it is used."""
    cells = []
    for code, (sign, (fill, ink)) in enumerate(COLOURS.items()):
        square = f'<rect width="{CELL - 1}" height="{CELL - 1}" fill="{fill}"/>'
        letter = svg.words(CELL / 2 - 0.5, 13.5, sign, f' text-anchor="middle" font-size="11" fill="{ink}"')
        cells.append(f'<g id="sign-{code}">{square}{letter}</g>')
    return ["<defs>", *cells, "</defs>"]


def _offsets(pieces: list[int]) -> list[int]:
    return [CELL * k + AIR * (piece // TENTH) for k, piece in enumerate(pieces)]


def _cells(book: Book, pieces: list[int], margin: float, name: svg.Name) -> list[str]:
    grid = book.grid()
    codes = {sign: code for code, sign in enumerate(COLOURS)}
    offsets = _offsets(pieces)
    names = [name(piece) for piece in pieces]
    shapes = []
    for row, a in enumerate(pieces):
        for column, b in enumerate(pieces):
            sign = grid.sign(a, b)
            told = svg.escaped(SPOKEN[sign].format(a=names[row], b=names[column]))
            x, y = margin + offsets[column], margin + offsets[row]
            shapes.append(f'<use href="#sign-{codes[sign]}" x="{x:.0f}" y="{y:.0f}"><title>{told}</title></use>')
    return shapes


def _labels(names: list[str], offsets: list[int], margin: float, end: float) -> list[str]:
    """Each piece's name on all four sides."""
    shapes = []
    level = all(svg.width_of(label, 11) <= CELL for label in names)
    for label, offset in zip(names, offsets):
        middle = margin + offset + CELL / 2
        shapes.append(svg.words(margin - 6, middle + 3.5, label, ' text-anchor="end" font-size="11"'))
        shapes.append(svg.words(end + 5, middle + 3.5, label, ' font-size="11"'))
        if level:
            shapes.append(svg.words(middle - 0.5, margin - 6, label, ' text-anchor="middle" font-size="11"'))
            shapes.append(svg.words(middle - 0.5, end + 13, label, ' text-anchor="middle" font-size="11"'))
        else:
            upward = 'rotate(-90)" font-size="11"'
            shapes.append(f'<text transform="translate({middle + 3.5:.1f},{margin - 6:.1f}) {upward}>{svg.escaped(label)}</text>')
            shapes.append(f'<text transform="translate({middle + 3.5:.1f},{end + 5:.1f}) {upward} text-anchor="end">{svg.escaped(label)}</text>')
    return shapes


def _legend(x: float, y: float) -> list[str]:
    shapes = []
    for code, sign in enumerate(COLOURS):
        shapes.append(f'<use href="#sign-{code}" x="{x:.0f}" y="{y + 26 * code:.0f}"/>')
        shapes.append(svg.words(x + CELL + 8, y + 26 * code + 14, SIGNS[sign]))
    return shapes


def _void(pieces: list[int], x: float, y: float, name: svg.Name) -> list[str]:
    """The void pieces, apart from the sheet."""
    if not pieces:
        return []
    shapes = [svg.words(x, y, "void: they hold no ice, and so are", f' fill="{svg.FAINT}"')]
    shapes.append(svg.words(x, y + 17, "PART of and APART from every piece", f' fill="{svg.FAINT}"'))
    style = f'fill="#fff" stroke="{svg.FAINT}"{svg.DOTS}'
    for k, piece in enumerate(pieces):
        width = svg.width_of(name(piece)) + 14
        shape = svg.box(x, y + 28 + 30 * k, width, 24, style) + svg.words(x + width / 2, y + 44 + 30 * k, name(piece), ' text-anchor="middle"')
        shapes.append(svg.titled(shape, f"{name(piece)} holds no ice"))
    return shapes


def grid_svg(book: Book, name: svg.Name = str) -> str:
    """What follows of every two pieces of a book of at most 64, as SVG; `name` gives a piece its label."""
    void = svg.checked(book).void
    pieces = [piece for piece in range(book.pieces) if piece not in void]
    names = [name(piece) for piece in pieces]
    margin = svg.MARGIN + 8 + max(svg.width_of(label, 11) for label in names)
    offsets = _offsets(pieces)
    end = margin + offsets[-1] + CELL
    side = end + margin + 10
    below = margin + 26 * len(COLOURS) + 24
    shapes = _symbols() + _labels(names, offsets, margin, end) + _cells(book, pieces, margin, name) + _legend(side, margin)
    shapes += _void(void, side, below, name)
    widest = max([230.0] + [svg.width_of(name(piece)) + 14 for piece in void])
    height = max(end + margin, below + (36 + 30 * len(void) if void else 0))
    return svg.picture(side + widest + svg.MARGIN, height, f"What follows of every two of {book.pieces} pieces", shapes)
