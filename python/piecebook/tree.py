"""The tree of a book's index: groups of pieces that are the same ice, and shadows."""
from __future__ import annotations

from typing import Iterator, NamedTuple, Sequence


class Node(NamedTuple):
    """A node by its place, from 0 in depth-first order.

    `pieces` are the group's, rising; those of what it stands for where the node is a shadow, whose place is then `stands_for`.
    """

    place: int
    parent: int | None
    depth: int
    pieces: tuple[int, ...]
    stands_for: int | None

    @property
    def shadow(self) -> bool:
        """Whether the node is a leaf that stands for another node."""
        return self.stands_for is not None


class Tree(NamedTuple):
    """All nodes in depth-first order, and for each piece the place of its node."""

    nodes: tuple[Node, ...]
    places: tuple[int, ...]

    def children(self) -> list[list[int]]:
        """For each node the places of its children, in order."""
        below: list[list[int]] = [[] for _ in self.nodes]
        for node in self.nodes:
            if node.parent is not None:
                below[node.parent].append(node.place)
        return below

    @property
    def groups(self) -> list[tuple[int, ...]]:
        """The groups of more than one piece, which are the same ice under several numbers."""
        return [node.pieces for node in self.nodes if not node.shadow and len(node.pieces) > 1]


def _bits(data: Sequence[int], count: int) -> Iterator[int]:
    return (data[k // 8] >> k % 8 & 1 for k in range(count))


def tree_of(pieces: int, nodes: int, parts: Sequence[Sequence[int]]) -> Tree:
    """The tree of an index of so many pieces and nodes."""
    parentheses, marks, shadows, placed = parts
    places = tuple(placed[:pieces])
    members: dict[int, list[int]] = {}
    for piece, place in enumerate(places):
        members.setdefault(place, []).append(piece)
    targets = iter(shadows)
    stands_for = [next(targets) if mark else None for mark in _bits(marks, nodes)]
    found: list[Node] = []
    above: list[int] = []
    for entering in _bits(parentheses, 2 * nodes):
        if not entering:
            above.pop()
            continue
        place = len(found)
        target = stands_for[place]
        group = tuple(members[place if target is None else target])
        found.append(Node(place, above[-1] if above else None, len(above), group, target))
        above.append(place)
    return Tree(tuple(found), places)
