"""The rules of document 01, with the marks of document 02's R-10, applied one by one, until nothing new is found, and the session.

A fact is (kind, a, b); `void` has the marked pieces. Nothing is shared between rules, and no rule is skipped because another would do.
"""
import itertools

PART, APART, MEETS, NOTPART = range(1, 5)
NAMES = {PART: "PART", APART: "APART", MEETS: "MEETS", NOTPART: "NOTPART"}
OPPOSITE = {PART: NOTPART, NOTPART: PART, APART: MEETS, MEETS: APART}


def new_facts(known, pieces, void):
    """All that one rule gives from what is known."""
    for g in pieces:
        yield PART, g, g  # (c)
        yield PART, g, 0  # (f)
        if g not in void:
            yield MEETS, g, g  # (e')
    for g, k in itertools.product(void, pieces):
        yield APART, g, k  # (d)
        yield PART, g, k  # (e)
    for kind, g, h in list(known):
        if kind in (APART, MEETS):  # unordered
            yield kind, h, g
    for (kind, g, h), (kind2, x, y) in itertools.product(list(known), repeat=2):
        if kind == PART and kind2 == PART and h == x:  # (a)
            yield PART, g, y
        if kind == PART and kind2 == APART and h == x:  # (b)
            yield APART, g, y
        if kind == PART and kind2 == NOTPART and g == x:  # (a')
            yield NOTPART, h, y
        if kind == NOTPART and kind2 == PART and h == y:  # (b')
            yield NOTPART, g, x
        if kind == PART and kind2 == MEETS and g == y:  # (c')
            yield MEETS, x, h
        if kind == MEETS and kind2 == APART and h == y:  # (d')
            yield NOTPART, g, x


def saturate(facts, pieces, void=frozenset()):
    known = set(facts)
    while True:
        found = set(new_facts(known, pieces, void)) - known
        if not found:
            return known
        known |= found


def contradictory(known):
    return any((OPPOSITE[kind], a, b) in known for kind, a, b in known)


def answer(known, claim):
    kind, a, b = claim
    if claim in known:
        return 1
    return 2 if (OPPOSITE[kind], a, b) in known else 3


SESSION = [
    (PART, 1, 0),
    (PART, 2, 0),
    (PART, 3, 1),
    (PART, 4, 1),
    (PART, 4, 2),
    (PART, 5, 4),
    (APART, 3, 4),
    (MEETS, 3, 2),
    (NOTPART, 2, 1),
]
CLAIMS = [
    (PART, 5, 2),
    (PART, 2, 1),
    (PART, 3, 2),
    (APART, 3, 5),
    (APART, 1, 2),
    (MEETS, 2, 3),
    (NOTPART, 2, 4),
    (NOTPART, 1, 3),
    (NOTPART, 0, 1),
    (PART, 1, 2),
]
