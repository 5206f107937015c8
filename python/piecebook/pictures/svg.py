"""SVG as text: what all pictures share."""
from __future__ import annotations

import re
import unicodedata
from html import escape
from typing import Callable, Iterable

from ..book import Book

Name = Callable[[int], str]

FONT = "DejaVu Sans, Verdana, sans-serif"
DIGIT = 7.8  # the widest digit of these fonts at 12 pixels
MARGIN = 16
INK = "#17354a"
FAINT = "#5b6f7d"
EDGE = "#7a94a8"
BORDER = "#3f6f8f"
FILL = "#e3f0f8"
DASHES = ' stroke-dasharray="4 3"'
DOTS = ' stroke-dasharray="1.5 3"'
# what XML 1.0 has no place for
_UNFIT = re.compile("[^\t\n\r\x20-\ud7ff\ue000-\ufffd\U00010000-\U0010ffff]")


def checked(book: object) -> Book:
    """A book, or TypeError."""
    if not isinstance(book, Book):
        raise TypeError(f"a picture is of a Book, not {type(book).__name__}")
    return book


def escaped(text: str) -> str:
    """Text for between tags or within quotes; what cannot stand in XML becomes the replacement character."""
    return escape(_UNFIT.sub("\ufffd", text))


def width_of(text: str, size: float = 12) -> float:
    """About how wide a text is, rather too much than too little."""
    letters = sum(2 if unicodedata.east_asian_width(letter) in "WF" else 1.25 if letter.isupper() else 1 for letter in text)
    return letters * DIGIT * size / 12


def titled(shapes: str, tooltip: str, attributes: str = "") -> str:
    """Shapes with a tooltip."""
    return f"<g{attributes}><title>{escaped(tooltip)}</title>{shapes}</g>"


def words(x: float, y: float, text: str, attributes: str = "") -> str:
    """A text at a place."""
    return f'<text x="{x:.1f}" y="{y:.1f}"{attributes}>{escaped(text)}</text>'


def box(x: float, y: float, width: float, height: float, attributes: str) -> str:
    """A box with round corners by its upper left corner."""
    return f'<rect x="{x:.1f}" y="{y:.1f}" width="{width:.1f}" height="{height:.1f}" rx="5" {attributes}/>'


def curve(points: list[tuple[float, float]], upright: bool) -> str:
    """A line through the points that bends between them, leaving and reaching each upright or level."""
    (x, y), *others = points
    data = f"M{x:.1f} {y:.1f}"
    for to_x, to_y in others:
        first = (x, (y + to_y) / 2) if upright else ((x + to_x) / 2, y)
        second = (to_x, (y + to_y) / 2) if upright else ((x + to_x) / 2, to_y)
        data += f" C{first[0]:.1f} {first[1]:.1f} {second[0]:.1f} {second[1]:.1f} {to_x:.1f} {to_y:.1f}"
        x, y = to_x, to_y
    return data


def line(data: str, attributes: str = "") -> str:
    """A thin line of this path."""
    return f'<path d="{data}" fill="none" stroke="{EDGE}" stroke-width="1.3"{attributes}/>'


def picture(width: float, height: float, title: str, shapes: Iterable[str]) -> str:
    """A whole picture on white."""
    head = (
        f'<svg xmlns="http://www.w3.org/2000/svg" width="{width:.0f}" height="{height:.0f}" viewBox="0 0 {width:.0f} {height:.0f}"'
        f' role="img" font-family="{FONT}" font-size="12" fill="{INK}">'
    )
    return "\n".join([head, f"<title>{escaped(title)}</title>", '<rect width="100%" height="100%" fill="#fff"/>', *shapes, "</svg>\n"])
