"""Document 01's edges: for each a name, the book, the claims and the page that the question program must print, from that document's rows and its list of edges.

A book of no bytes is piece 0 alone (R-1); byte 1 is the origin (R-5); kind 5 is no kind (R-7); kind 6 marks a piece as void (R-10); a container has any number (R-13).
Pages are written out by hand or by the one rule that a book without PART records has a node for each piece: nothing is derived here.
"""
from rules import APART, MEETS, NAMES, NOTPART, PART, SESSION

TRAY, VOID = 5, 6
SHEET, SCANNER = 0, 1
FOLLOWS, DENIED, OPEN = "FOLLOWS", "DENIED", "OPEN"


def six(kind, a, b, origin=SHEET):
    return bytes([kind, origin, a % 256, a // 256, b % 256, b // 256])


def run_of(*records):
    return b"".join(six(*record) for record in records)


def refused(number, place=0):
    return f"REFUSED {number} {place}\n"


def grouped(pieces, nodes, shadows, claims=()):
    return f"PIECES {pieces} NODES {nodes} SHADOWS {shadows}\n" + "".join(f"{i} {claim}\n" for i, claim in enumerate(claims))


def accepted(pieces, claims=()):
    """With no PART records but those of pieces in 0 or in themselves every piece is a node in 0, and there is no shadow."""
    return grouped(pieces, pieces, 0, claims)


def said(claims, answers):
    return [f"{NAMES[kind]} {a} {b} {answer}" for (kind, a, b), answer in zip(claims, answers, strict=True)]


def asked(claims, origin):
    return run_of(*((*claim, origin) for claim in claims))


def many(count):
    """MEETS records of two among 256 pieces, all of which differ."""
    return run_of(*((MEETS, i // 256 % 256, i % 256) for i in range(count)))


def rows():
    """Lengths, kinds, origins, pieces, repeats."""
    zero = run_of((MEETS, 0, 0))
    yield "no-bytes", b"", b"", accepted(1)
    yield "no-bytes-claim-piece-0", b"", zero, accepted(1, ["MEETS 0 0 FOLLOWS"])
    yield "no-bytes-claim-piece-1", b"", run_of((MEETS, 0, 1)), refused(13)
    yield "ragged", zero[:5], b"", refused(3)
    # the largest number among 8,192 of them is 255
    yield "8192-records", many(8192), b"", accepted(256)
    yield "8193-records", many(8193), b"", refused(4)
    yield "kind-0", run_of((0, 0, 0)), b"", refused(5)
    yield "kind-7", run_of((7, 0, 0)), b"", refused(5)
    yield "origin-1", run_of((MEETS, 0, 0, SCANNER)), b"", accepted(1)
    yield "origin-2", run_of((MEETS, 0, 0, 2)), b"", refused(6)
    yield "piece-2047", run_of((APART, 1, 2047)), b"", accepted(2048)
    yield "piece-2047-as-a", run_of((APART, 2047, 1)), b"", accepted(2048)
    yield "piece-2048", run_of((APART, 1, 2048)), b"", refused(7)
    yield "piece-2048-as-a", run_of((APART, 2048, 1)), b"", refused(7)
    yield "tray", zero + run_of((TRAY, 0, 65535)), b"", refused(5, 1)
    yield "PART-3-3", run_of((PART, 3, 3)), b"", accepted(4)
    yield "PART-0-0", run_of((PART, 0, 0)), b"", accepted(1)
    yield "APART-3-4-and-4-3", run_of((APART, 3, 4), (APART, 4, 3)), b"", accepted(5)
    yield "repeat", run_of((APART, 3, 4), (APART, 3, 4)), b"", refused(9, 1)


def mark_rows():
    """R-10: row 19, and the rows before it and behind it."""
    mark = run_of((VOID, 1, 0))
    yield "mark", mark, b"", accepted(2)
    yield "mark-of-origin-1", run_of((VOID, 2047, 0, SCANNER)), b"", accepted(2048)
    yield "mark-of-origin-2", run_of((VOID, 0, 0, 2)), b"", refused(6)
    yield "mark-of-2048", run_of((VOID, 2048, 1)), b"", refused(7)
    yield "mark-of-0", run_of((VOID, 0, 0)), b"", refused(19)
    yield "mark-with-b", run_of((VOID, 1, 2048)), b"", refused(19)
    yield "marks-of-both-origins", mark + run_of((VOID, 1, 0, SCANNER)), b"", accepted(2)
    yield "repeated-mark", mark + mark, b"", refused(9, 1)
    yield "claim-of-kind-6", mark, mark, refused(12)


def origins():
    """R-5: a fact once of each, and a contradiction of both."""
    yield "APART-3-4-of-both-origins", run_of((APART, 3, 4), (APART, 3, 4, SCANNER)), b"", accepted(5)
    yield "PART-1-0-of-both-origins", run_of((PART, 1, 0, SCANNER), (PART, 1, 0)), b"", accepted(2)
    yield "repeat-of-origin-1", run_of((APART, 3, 4, SCANNER), (APART, 3, 4, SCANNER)), b"", refused(9, 1)
    yield "contradiction-of-both-origins", run_of((PART, 2, 1), (APART, 2, 1, SCANNER)), b"", refused(14, 1)


def contradictions():
    """Row 14."""
    yield "APART-2-2", run_of((APART, 2, 2)), b"", refused(14, 0)
    yield "NOTPART-1-0", run_of((NOTPART, 1, 0)), b"", refused(14, 0)
    yield "APART-1-0", run_of((APART, 1, 0)), b"", refused(14, 0)
    yield "NOTPART-0-1", run_of((NOTPART, 0, 1)), b"", accepted(2)
    yield "session-and-MEETS-5-3", run_of(*SESSION, (MEETS, 5, 3)), b"", refused(14, 9)


def claim_rows():
    """Rows 10 to 13."""
    zero = run_of((MEETS, 0, 0))
    yield "claim-ragged", zero, b"\1", refused(10)
    yield "4096-claims", zero, zero * 4096, accepted(1, ["MEETS 0 0 FOLLOWS"] * 4096)
    yield "4097-claims", zero, zero * 4097, refused(11)
    yield "claim-kind", zero, run_of((TRAY, 0, 0)), refused(12)
    yield "claim-origin-1", zero, run_of((PART, 0, 0, SCANNER)), accepted(1, ["PART 0 0 FOLLOWS"])
    yield "claim-origin-2", zero, run_of((PART, 0, 0, 2)), refused(12)
    yield "claim-piece", zero, run_of((PART, 1, 0)), refused(13)


def restricted():
    """R-5: ten pieces; PART 2 1, APART 3 4, MEETS 5 6 and NOTPART 7 8 are the scanner's, PART 9 2 stands on a sheet. All pieces but 2 and 9 are joined to 0."""
    stored = [(PART, 2, 1), (APART, 3, 4), (MEETS, 5, 6), (NOTPART, 7, 8)]
    opposite = [(NOTPART, 2, 1), (MEETS, 3, 4), (APART, 5, 6), (PART, 7, 8)]
    chained = [(PART, 9, 1), (PART, 9, 2), (NOTPART, 9, 1), (NOTPART, 9, 2)]
    book = asked(stored, SCANNER) + run_of((PART, 9, 2))
    for name, claims, origin, answers in [
        ("stored-from-all-facts", stored, SHEET, [FOLLOWS] * 4),
        ("opposite-from-all-facts", opposite, SHEET, [DENIED] * 4),
        ("stored-from-sheets", stored, SCANNER, [OPEN] * 4),
        ("opposite-from-sheets", opposite, SCANNER, [OPEN] * 4),
        ("chained-from-all-facts", chained, SHEET, [FOLLOWS, FOLLOWS, DENIED, DENIED]),
        ("chained-from-sheets", chained, SCANNER, [OPEN, FOLLOWS, OPEN, DENIED]),
    ]:
        yield name, book, asked(claims, origin), grouped(10, 10, 0, said(claims, answers))


def void_rows():
    """Row 14 with marks, which count wherever they stand."""
    mark = (VOID, 1, 0)
    yield "void-MEETS", run_of(mark, (MEETS, 1, 2)), b"", refused(14, 1)
    yield "void-MEETS-marked-behind", run_of((MEETS, 1, 2), mark), b"", refused(14, 0)
    yield "void-MEETS-itself", run_of(mark, (MEETS, 1, 1)), b"", refused(14, 1)
    yield "unmarked-part-of-void", run_of(mark, (PART, 2, 1)), b"", refused(14, 1)
    yield "void-part-of-void", run_of(mark, (PART, 2, 1), (VOID, 2, 0)), b"", grouped(3, 3, 0)
    yield "void-NOTPART", run_of(mark, (NOTPART, 1, 2)), b"", refused(14, 1)
    yield "NOTPART-of-void", run_of(mark, (NOTPART, 2, 1)), b"", accepted(3)
    yield "void-APART-from-itself-and-0", run_of(mark, (APART, 1, 1), (APART, 1, 0)), b"", accepted(2)


def void_claims():
    """R-10: piece 1 is void by the scanner's mark, PART 2 0 stands on a sheet; the answers are the same from all facts and from the sheets."""
    book = run_of((VOID, 1, 0, SCANNER), (PART, 2, 0))
    for origin, source in [(SHEET, "from-all-facts"), (SCANNER, "from-sheets")]:
        for name, a, b, answers in [
            ("void-with-another", 1, 2, [FOLLOWS, FOLLOWS, DENIED, DENIED]),
            ("another-with-void", 2, 1, [DENIED, FOLLOWS, DENIED, FOLLOWS]),
            ("void-with-itself", 1, 1, [FOLLOWS, FOLLOWS, DENIED, DENIED]),
            ("another-with-itself", 2, 2, [FOLLOWS, DENIED, FOLLOWS, DENIED]),
        ]:
            claims = [(kind, a, b) for kind in (PART, APART, MEETS, NOTPART)]
            yield f"{name}-{source}", book, asked(claims, origin), accepted(3, said(claims, answers))


def circles():
    """R-13: pieces that are PART of each other are one node; 0 contains every piece, so that what contains 0 is in its group."""
    claims = [(PART, 1, 2), (PART, 2, 1), (NOTPART, 2, 1), (MEETS, 1, 2), (PART, 0, 1)]
    # nodes 0 and {1, 2}
    answers = [FOLLOWS, FOLLOWS, DENIED, FOLLOWS, OPEN]
    yield "circle", run_of((PART, 1, 2), (PART, 2, 1)), asked(claims, SHEET), grouped(3, 2, 0, said(claims, answers))
    # the same, PART 2 1 being the scanner's: asked of the sheets
    answers = [FOLLOWS, OPEN, OPEN, FOLLOWS, OPEN]
    yield "circle-from-sheets", run_of((PART, 1, 2), (PART, 2, 1, SCANNER)), asked(claims, SCANNER), grouped(3, 2, 0, said(claims, answers))
    yield "circle-with-NOTPART", run_of((PART, 1, 2), (PART, 2, 1), (NOTPART, 1, 2)), b"", refused(14, 2)
    # one node {0, 1}
    claims = [(PART, 0, 1), (NOTPART, 0, 1)]
    yield "circle-with-0", run_of((PART, 0, 1)), asked(claims, SHEET), grouped(2, 1, 0, said(claims, [FOLLOWS, DENIED]))
    # nodes 0, 3, 1, 2
    claims = [(PART, 1, 3), (PART, 3, 1), (PART, 2, 0), (MEETS, 1, 2)]
    page = grouped(4, 4, 0, said(claims, [FOLLOWS, OPEN, FOLLOWS, OPEN]))
    yield "late-bag", run_of((PART, 1, 3), (PART, 2, 3), (PART, 3, 0)), asked(claims, SHEET), page
    # nodes 0, 1, {3, 4}, 2 and a shadow of {3, 4}
    claims = [(PART, 3, 2), (PART, 4, 1), (MEETS, 1, 2), (PART, 1, 4)]
    page = grouped(5, 5, 1, said(claims, [FOLLOWS, FOLLOWS, FOLLOWS, OPEN]))
    yield "shadow-of-circle", run_of((PART, 4, 3), (PART, 3, 4), (PART, 4, 2), (PART, 3, 1)), asked(claims, SHEET), page


def edges():
    """A list one number short, which the question program never lends, is tried by tests/reference/."""
    for group in (rows, mark_rows, origins, contradictions, claim_rows, restricted, void_rows, void_claims, circles):
        yield from group()
