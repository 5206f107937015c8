"""The tree of a book: groups as one node, shadows dashed."""
from __future__ import annotations

from typing import NamedTuple

from ..book import Book
from ..tree import Node, Tree
from . import svg

HEIGHT = 26
LEVEL = 62
GAP = 12
ROW = 32
INDENT = 26
RAIL = 5
AIR = 18
WIDEST = 1240
NAMED = 4


class Layout(NamedTuple):
    """The upper left corner of each node, and the lines to the nodes below."""

    corners: list[tuple[float, float]]
    edges: list[str]
    width: float
    height: float


def _label(node: Node, void: set[int], name: svg.Name) -> str:
    shown = " = ".join(name(piece) for piece in node.pieces[:NAMED])
    more = len(node.pieces) - NAMED
    return shown + (f" and {more} more" if more > 0 else "") + (" void" if void.intersection(node.pieces) else "")


def _group(pieces: tuple[int, ...], name: svg.Name) -> str:
    return ", ".join(name(piece) for piece in pieces)


def _tooltip(tree: Tree, node: Node, void: set[int], name: svg.Name) -> str:
    pieces = _group(node.pieces, name)
    if node.parent is None:
        told = f"{pieces}: all the ice"
    elif node.stands_for is None:
        told = f"{pieces} in {_group(tree.nodes[node.parent].pieces, name)}"
    else:
        home = tree.nodes[tree.nodes[node.stands_for].parent or 0]
        told = f"{pieces} in {_group(tree.nodes[node.parent].pieces, name)} too: a shadow of the node under {_group(home.pieces, name)}"
    same = "; the same ice under several numbers" if len(node.pieces) > 1 else ""
    return told + same + ("; void, holds no ice" if void.intersection(node.pieces) else "")


def _spans(tree: Tree, below: list[list[int]], widths: list[float]) -> list[float]:
    """How wide each node is with all that hangs below it."""
    spans = list(widths)
    for node in reversed(tree.nodes):
        if below[node.place]:
            children = sum(spans[child] for child in below[node.place]) + GAP * (len(below[node.place]) - 1)
            spans[node.place] = max(widths[node.place], children)
    return spans


class Drawing:
    """What is laid out so far: the upper left corner of each node, and the lines between."""

    def __init__(self, tree: Tree, widths: list[float]) -> None:
        self.tree = tree
        self.below = tree.children()
        self.widths = widths
        self.spans = _spans(tree, self.below, widths)
        self.corners = [(0.0, 0.0)] * len(tree.nodes)
        self.edges: list[str] = []

    def centre(self, place: int) -> float:
        """Where lines reach a node from above."""
        return self.corners[place][0] + self.widths[place] / 2

    def join(self, path: str, child: int) -> None:
        """A line to a node, dashed to a shadow."""
        self.edges.append(svg.line(path, svg.DASHES * self.tree.nodes[child].shadow))

    def hang(self, root: int, left: float, top: float) -> float:
        """A node with all below it: each above its children, in the middle of their span. Says how far down they reach."""
        starts = {root: left}
        bottom = top
        waiting = [root]
        while waiting:
            place = waiting.pop()
            y = top + LEVEL * (self.tree.nodes[place].depth - self.tree.nodes[root].depth)
            middle = starts[place] + self.spans[place] / 2
            self.corners[place] = (middle - self.widths[place] / 2, y)
            bottom = max(bottom, y + HEIGHT)
            children = self.below[place]
            x = middle - (sum(self.spans[child] for child in children) + GAP * (len(children) - 1)) / 2
            for child in children:
                starts[child] = x
                self.join(svg.curve([(middle, y + HEIGHT), (x + self.spans[child] / 2, y + LEVEL)], True), child)
                x += self.spans[child] + GAP
            waiting.extend(children)
        return bottom

    def layout(self, bottom: float) -> Layout:
        """All of it."""
        width = max(x + own for (x, _), own in zip(self.corners, self.widths))
        return Layout(self.corners, self.edges, width + svg.MARGIN, bottom)


def _indent(tree: Tree, place: int) -> float:
    return svg.MARGIN + INDENT * tree.nodes[place].depth


def _rows(drawing: Drawing) -> list[list[int]]:
    """The rows of an outline: a node that is too wide with all below it, or neighbours of one container that are not, as many as fit."""
    tree, spans = drawing.tree, drawing.spans
    rows: list[list[int]] = []
    right = float("inf")
    waiting = [0]
    while waiting:
        place = waiting.pop()
        left = _indent(tree, place)
        if left + spans[place] > WIDEST - svg.MARGIN:
            rows.append([place])
            right = float("inf")
            waiting.extend(reversed(drawing.below[place]))
        elif right + GAP + spans[place] <= WIDEST - svg.MARGIN and tree.nodes[rows[-1][-1]].parent == tree.nodes[place].parent:
            rows[-1].append(place)
            right += GAP + spans[place]
        else:
            rows.append([place])
            right = left + spans[place]
    return rows


def _reach(drawing: Drawing, row: list[int], start: float, top: float) -> float:
    """Lines from a container to a row of its parts: an elbow to one, a rail with a drop to each of several. Says where the next row's line begins."""
    parent = drawing.tree.nodes[row[0]].parent
    trunk = drawing.corners[parent][0] + INDENT / 2
    if len(row) == 1:
        drawing.join(f"M{trunk:.1f} {start:.1f} V{top + HEIGHT / 2:.1f} H{drawing.corners[row[0]][0]:.1f}", row[0])
        return top + HEIGHT / 2
    drawing.edges.append(svg.line(f"M{trunk:.1f} {start:.1f} V{top - RAIL:.1f} H{drawing.centre(row[-1]):.1f}"))
    for place in row:
        drawing.join(f"M{drawing.centre(place):.1f} {top - RAIL:.1f} V{top:.1f}", place)
    return top - RAIL


def _outline(drawing: Drawing) -> Layout:
    """Rows set in by their depth, what fits drawn downward in them: for trees that are too wide for the other form."""
    tree = drawing.tree
    starts: dict[int, float] = {}
    top = float(svg.MARGIN)
    for row in _rows(drawing):
        top += 2 * RAIL if len(row) > 1 else 0
        left = _indent(tree, row[0])
        bottom = top + HEIGHT
        if left + drawing.spans[row[0]] > WIDEST - svg.MARGIN:
            drawing.corners[row[0]] = (left, top)
        else:
            for place in row:
                bottom = max(bottom, drawing.hang(place, left, top))
                left += drawing.spans[place] + GAP
        parent = tree.nodes[row[0]].parent
        if parent is not None:
            begun = starts.get(parent, drawing.corners[parent][1] + HEIGHT)
            starts[parent] = _reach(drawing, row, begun, top)
        top = bottom + (AIR if bottom > top + HEIGHT else ROW - HEIGHT)
    return drawing.layout(top + ROW - HEIGHT)


def _style(shadow: bool, group: bool, void: bool) -> str:
    fill = "#fff" if shadow or void else svg.FILL
    stroke = f'stroke="{svg.FAINT if void else svg.BORDER}" stroke-width="{2.4 if group else 1.2}"'
    return f'fill="{fill}" {stroke}{svg.DASHES if shadow else svg.DOTS if void else ""}'


def _shape(node: Node, label: str, corner: tuple[float, float], width: float, void: bool) -> str:
    x, y = corner
    style = _style(node.shadow, len(node.pieces) > 1, void)
    slanted = ' font-style="italic"' if node.shadow else ""
    text = svg.words(x + width / 2, y + 17, label, f' text-anchor="middle"{slanted}')
    return svg.box(x, y, width, HEIGHT, style) + text


def _drawn(tree: Tree, layout: Layout, labels: list[str], widths: list[float], void: set[int], name: svg.Name) -> list[str]:
    """All nodes with their tooltips; a shadow leads to the node that it stands for."""
    shapes = []
    for node in tree.nodes:
        shape = _shape(node, labels[node.place], layout.corners[node.place], widths[node.place], bool(void.intersection(node.pieces)))
        titled = svg.titled(shape, _tooltip(tree, node, void, name), f' id="place-{node.place}"')
        shapes.append(titled if node.stands_for is None else f'<a href="#place-{node.stands_for}">{titled}</a>')
    return shapes


def _legend(tree: Tree, void: set[int], y: float) -> tuple[list[str], float, float]:
    """The signs that occur, their width and their height."""
    entries = [
        (bool(tree.groups), (False, True, False), "the same ice under several numbers"),
        (any(node.shadow for node in tree.nodes), (True, False, False), "a shadow: that piece lies here too"),
        (bool(void), (False, False, True), "void: holds no ice"),
    ]
    shapes: list[str] = []
    width = 0.0
    for _, style, text in (entry for entry in entries if entry[0]):
        shapes.append(svg.box(svg.MARGIN, y, 26, 16, _style(*style)) + svg.words(svg.MARGIN + 36, y + 12, text, f' fill="{svg.FAINT}"'))
        width = max(width, svg.MARGIN + 52 + svg.width_of(text))
        y += 24
    return shapes, width, y + 4


def tree_svg(book: Book, name: svg.Name = str) -> str:
    """The book's tree as SVG; `name` gives a piece its label. Tooltips tell what each node stands for."""
    tree = svg.checked(book).tree()
    void = set(book.void)
    labels = [_label(node, void, name) for node in tree.nodes]
    widths = [svg.width_of(label) + 14 for label in labels]
    drawing = Drawing(tree, widths)
    fits = drawing.spans[0] <= WIDEST
    layout = drawing.layout(drawing.hang(0, svg.MARGIN, svg.MARGIN) + svg.MARGIN) if fits else _outline(drawing)
    legend, width, height = _legend(tree, void, layout.height + 4)
    shapes = layout.edges + _drawn(tree, layout, labels, widths, void, name) + legend
    return svg.picture(max(layout.width, width), height, f"The tree of {book.pieces} pieces", shapes)
