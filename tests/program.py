#!/usr/bin/env python3
"""Runs the question program as a user does, in a directory of its own each time, and compares every byte that it writes with document 01's words. On standard error it
writes nothing, but where its page cannot be written whole.

    program.py [BINARY]     crates/query/out/query where none is given; the last line is 'N passed, M failed'

Small books are judged here by the rules one after another; large ones are made so that their answers are known beforehand; document 01's edges are those of edges.py.
"""
import pathlib
import resource
import signal
import subprocess
import sys
import tempfile
import time

ROOT = pathlib.Path(__file__).resolve().parent.parent
sys.dont_write_bytecode = True
sys.path.insert(0, str(ROOT / "tests"))
from edges import edges  # noqa: E402
from rules import APART, CLAIMS, MEETS, NAMES, NOTPART, PART, SESSION, answer, contradictory, saturate  # noqa: E402

WORDS = {1: "FOLLOWS", 2: "DENIED", 3: "OPEN"}
TRAY, VOID = 5, 6
DIRECTORY = "a directory"


def six(kind, a, b, second=0):
    return bytes([kind, second, a % 256, a // 256, b % 256, b // 256])


def run_of(records):
    return b"".join(six(*record) for record in records)


def named(record):
    kind, a, b = record
    return max(a, b) if kind in NAMES else a


def groups(pairs, pieces):
    """The group of each piece: those that it is PART of and that are PART of it, every piece being PART of 0."""
    inside = {piece: {piece, 0} for piece in range(pieces)}
    for part, container in pairs:
        inside[part].add(container)
    changed = True
    while changed:
        changed = False
        for piece, above in inside.items():
            more = set().union(*(inside[container] for container in above))
            changed |= not more <= above
            above |= more
    return [frozenset(other for other in inside[piece] if piece in inside[other]) for piece in range(pieces)]


def counts(pairs, pieces):
    """Nodes and shadows: one node for the group of 0 and one for each pair of groups, joins included; the first pair of each part is its node."""
    group = groups(pairs, pieces)
    edges = {(group[part], group[container]) for part, container in pairs if group[part] != group[container]}
    held = {part for part, _ in edges} | {group[0]}
    nodes = 1 + len(edges) + len(set(group) - held)
    return f"PIECES {pieces} NODES {nodes} SHADOWS {nodes - len(set(group))}\n"


def page(records, claims):
    """What the program prints for a sound book of few pieces. Its marks count in every run of its records."""
    pieces = 1 + max([named(record) for record in records], default=0)
    void = {a for kind, a, _ in records if kind == VOID}

    def derived(run):
        return saturate([record for record in run if record[0] != VOID], range(pieces), void)

    known = derived(records)
    if contradictory(known):
        place = next(k for k in range(len(records)) if contradictory(derived(records[: k + 1])))
        return f"REFUSED 14 {place}\n"
    lines = [f"{i} {NAMES[kind]} {a} {b} {WORDS[answer(known, (kind, a, b))]}\n" for i, (kind, a, b) in enumerate(claims)]
    return counts({(a, b) for kind, a, b in records if kind == PART}, pieces) + "".join(lines)


# ---- a book in which every two of 128 pieces meet

ALL_MEET = [(MEETS, a, b) for a in range(128) for b in range(a)] + [(MEETS, b, a) for a in range(12) for b in range(a)]
FULL = ALL_MEET[:8192]


def meeting_page(claims):
    def word(kind, a, b):
        if kind in (MEETS, APART):
            return "FOLLOWS" if kind == MEETS else "DENIED"
        if a == b or b == 0:
            return "FOLLOWS" if kind == PART else "DENIED"
        return "OPEN"

    return counts(set(), 128) + "".join(f"{i} {NAMES[kind]} {a} {b} {word(kind, a, b)}\n" for i, (kind, a, b) in enumerate(claims))


def many_claims(count):
    return [(1 + i % 4, i * 7 % 128, i * 13 // 5 % 128) for i in range(count)]


def cases():
    for name, book, claims, expected in edges():
        yield f"edge {name}", book, claims, expected
    session, asked = run_of(SESSION), run_of(CLAIMS)
    empty = page([], [(PART, 0, 0), (MEETS, 0, 0), (NOTPART, 0, 0), (APART, 0, 0)])
    about_nothing = run_of([(PART, 0, 0), (MEETS, 0, 0), (NOTPART, 0, 0), (APART, 0, 0)])
    yield "the session", session, asked, page(SESSION, CLAIMS)
    yield "no file", None, about_nothing, empty
    yield "no file, no claims", None, b"", page([], [])
    yield "no file, a claim about piece 1", None, about_nothing + six(PART, 1, 0), "REFUSED 13 4\n"
    yield "an empty file", b"", about_nothing, empty
    yield "a file that is a directory", DIRECTORY, about_nothing, empty
    yield "no claims", session, b"", page(SESSION, [])
    full = run_of(FULL)
    yield "8,192 records", full, run_of(many_claims(100)), meeting_page(many_claims(100))
    yield "8,193 records", full + six(MEETS, 126, 127), asked, "REFUSED 4 0\n"
    yield "9,000 records", run_of(FULL + [(APART, a, 0) for a in range(1000, 1808)]), asked, "REFUSED 4 0\n"
    yield "4,096 claims", full, run_of(many_claims(4096)), meeting_page(many_claims(4096))
    yield "4,097 claims", full, run_of(many_claims(4097)), "REFUSED 11 0\n"
    yield "5,000 claims", full, run_of(many_claims(5000)), "REFUSED 11 0\n"
    yield "a book that ends in a record", session[:-1], asked, "REFUSED 3 0\n"
    yield "claims that end in a claim", session, asked[:-2], "REFUSED 10 0\n"
    yield "49,158 bytes, the last one beyond them", full + b"\1\0\1\0\0\0\1", asked, "REFUSED 4 0\n"
    # PART 2 1 is the scanner's, PART 3 2 stands on a sheet; a restricted claim's line is like any other
    scanned = six(PART, 2, 1, 1) + six(PART, 3, 2)
    claims = b"".join(six(*claim) for claim in [(PART, 3, 1), (PART, 3, 1, 1), (NOTPART, 2, 1), (NOTPART, 2, 1, 1), (MEETS, 3, 2, 1)])
    words = ["0 PART 3 1 FOLLOWS", "1 PART 3 1 OPEN", "2 NOTPART 2 1 DENIED", "3 NOTPART 2 1 OPEN", "4 MEETS 3 2 FOLLOWS"]
    yield "claims on all facts and on the sheets", scanned, claims, counts({(2, 1), (3, 2)}, 4) + "".join(word + "\n" for word in words)
    # each kind of claim about a void piece, and what no void piece can be
    void = [(VOID, 1, 0), (PART, 2, 0), (VOID, 3, 0), (PART, 3, 2)]
    about = [(kind, a, b) for a, b in [(1, 2), (2, 1), (1, 1), (1, 3), (3, 2), (2, 3), (0, 1), (2, 2), (1, 0)] for kind in NAMES]
    words = ["0 PART 1 2 FOLLOWS", "1 APART 1 2 FOLLOWS", "2 MEETS 1 2 DENIED", "3 NOTPART 1 2 DENIED", "4 PART 2 1 DENIED"]
    yield "claims about void pieces", run_of(void), run_of(about), page(void, about)
    yield "five of them by hand", run_of(void), run_of(about[:5]), counts({(2, 0), (3, 2)}, 4) + "".join(word + "\n" for word in words)
    yield "a scanner's mark and restricted claims", six(VOID, 1, 0, 1) + run_of(void[1:]), b"".join(six(*c, 1) for c in about), page(void, about)
    for name, records, line in [
        ("a void piece that MEETS another", [(VOID, 1, 0), (MEETS, 2, 1)], "REFUSED 14 1\n"),
        ("a mark counts from the first record on", [(MEETS, 2, 1), (PART, 3, 0), (VOID, 1, 0)], "REFUSED 14 0\n"),
        ("an unmarked part of a void piece", [(PART, 2, 1), (VOID, 1, 0)], "REFUSED 14 0\n"),
        ("a void part of a void piece", [(PART, 2, 1), (VOID, 1, 0), (VOID, 2, 0)], counts({(2, 1)}, 3)),
        ("a void piece NOTPART of another", [(VOID, 1, 0), (NOTPART, 1, 2)], "REFUSED 14 1\n"),
        ("a void piece APART from all the ice", [(APART, 1, 0), (APART, 1, 1), (VOID, 1, 0)], counts(set(), 2)),
    ]:
        assert line == page(records, [])
        yield name, run_of(records), b"", line
    # a container has any number, and pieces in a circle are one node
    about = [(kind, a, b) for a in range(4) for b in range(4) for kind in NAMES]
    for name, records, line in [
        ("PART 3 3", [(PART, 3, 3)], "PIECES 4 NODES 4 SHADOWS 0\n"),
        ("PART 0 0", [(PART, 0, 0)], "PIECES 1 NODES 1 SHADOWS 0\n"),
        ("a circle of two", [(PART, 1, 2), (PART, 2, 1), (MEETS, 3, 0)], "PIECES 4 NODES 3 SHADOWS 0\n"),
        ("0 in a piece", [(PART, 0, 1)], "PIECES 2 NODES 1 SHADOWS 0\n"),
        ("a bag numbered late", [(PART, 1, 3), (PART, 2, 3), (PART, 3, 0)], "PIECES 4 NODES 4 SHADOWS 0\n"),
        ("a shadow of a circle", [(PART, 4, 3), (PART, 3, 4), (PART, 4, 2), (PART, 3, 1)], "PIECES 5 NODES 5 SHADOWS 1\n"),
        ("a circle in two circles", [(PART, a, b) for a, b in [(1, 2), (2, 1), (3, 4), (4, 3), (5, 6), (6, 5), (5, 1), (6, 3), (5, 2)]], "PIECES 7 NODES 5 SHADOWS 1\n"),
        ("a circle with a NOTPART in it", [(PART, 1, 2), (PART, 2, 1), (NOTPART, 1, 2)], "REFUSED 14 2\n"),
        ("a circle that closes on a NOTPART", [(NOTPART, 3, 2), (PART, 2, 3), (PART, 3, 1), (MEETS, 0, 4), (PART, 1, 2)], "REFUSED 14 4\n"),
        ("a circle of all pieces", [(PART, a, (a + 1) % 5) for a in range(5)], "PIECES 5 NODES 1 SHADOWS 0\n"),
    ]:
        assert line == page(records, []), (name, page(records, []))
        claims = [claim for claim in about if max(claim[1:]) <= max(map(named, records))]
        yield name, run_of(records), run_of(claims), page(records, claims)
    words = ["0 PART 2 1 FOLLOWS", "1 NOTPART 1 2 DENIED", "2 PART 3 1 FOLLOWS", "3 PART 1 3 OPEN", "4 APART 4 2 FOLLOWS", "5 MEETS 3 4 DENIED", "6 NOTPART 2 4 FOLLOWS"]
    circle = [(PART, 1, 2), (PART, 2, 1), (PART, 3, 2), (APART, 4, 1)]
    asked_of_it = run_of([(PART, 2, 1), (NOTPART, 1, 2), (PART, 3, 1), (PART, 1, 3), (APART, 4, 2), (MEETS, 3, 4), (NOTPART, 2, 4)])
    yield "claims about a circle", run_of(circle), asked_of_it, "PIECES 5 NODES 4 SHADOWS 0\n" + "".join(word + "\n" for word in words)
    ring = run_of([(PART, a, a % 2046 + 1) for a in range(1, 2047)])
    words = ["0 PART 1 2046 FOLLOWS", "1 PART 2046 1 FOLLOWS", "2 NOTPART 1000 999 DENIED", "3 PART 0 1 OPEN", "4 APART 1 2047 OPEN"]
    asked_of_it = run_of([(PART, 1, 2046), (PART, 2046, 1), (NOTPART, 1000, 999), (PART, 0, 1), (APART, 1, 2047)])
    yield "a circle of 2,046 pieces", ring + six(MEETS, 0, 2047), asked_of_it, "PIECES 2048 NODES 3 SHADOWS 0\n" + "".join(word + "\n" for word in words)
    line = run_of([(PART, a, a + 1) for a in range(1, 2047)])
    words = ["0 PART 1 2047 FOLLOWS", "1 PART 2047 1 OPEN", "2 MEETS 2047 1 FOLLOWS", "3 NOTPART 5 2000 DENIED"]
    asked_of_it = run_of([(PART, 1, 2047), (PART, 2047, 1), (MEETS, 2047, 1), (NOTPART, 5, 2000)])
    yield "a line whose containers come late", line, asked_of_it, "PIECES 2048 NODES 2048 SHADOWS 0\n" + "".join(word + "\n" for word in words)
    yield "a mark of piece 0", session + six(VOID, 0, 0), asked, "REFUSED 19 9\n"
    yield "a claim of kind 6", session, asked + six(VOID, 1, 0), "REFUSED 12 10\n"
    yield "a TRAY record", six(PART, 1, 0) + six(TRAY, 1, 7), asked, "REFUSED 5 1\n"
    for number, record in [
        (5, six(7, 1, 0)),
        (6, six(APART, 1, 2, 9)),
        (7, six(MEETS, 2048, 1)),
        (19, six(VOID, 1, 3)),
        (9, six(*SESSION[4])),
    ]:
        yield f"number {number} in record 9", session + record, asked, f"REFUSED {number} 9\n"
        yield f"number {number} in record 4,000", run_of(FULL[:4000]) + (six(*FULL[17]) if number == 9 else record), b"", f"REFUSED {number} 4000\n"
    yield "number 12 in claim 10", session, asked + six(TRAY, 1, 0), "REFUSED 12 10\n"
    yield "number 12 in claim 3,000", full, run_of(many_claims(3000)) + six(PART, 1, 0, 7), "REFUSED 12 3000\n"
    yield "number 13 in claim 10", session, asked + six(PART, 6, 0), "REFUSED 13 10\n"
    yield "number 13 in claim 4,095", full, run_of(many_claims(4095)) + six(PART, 5, 128), "REFUSED 13 4095\n"
    yield "number 14", session + six(MEETS, 5, 3), asked, page(SESSION + [(MEETS, 5, 3)], [])
    yield "number 14 in record 8,191", run_of(FULL[:8191]) + six(APART, 3, 4), asked, "REFUSED 14 8191\n"


def slow(writer, data):
    """Writes in pieces of 1 to 7 bytes."""
    at, size = 0, 1
    while at < len(data):
        writer.write(data[at : at + size])
        writer.flush()
        at, size = at + size, size % 7 + 1
        time.sleep(0.001)
    writer.close()


def put_book(room, book):
    if book == DIRECTORY:
        (room / "book.rec").mkdir()
    elif book is not None:
        (room / "book.rec").write_bytes(book)


def printed(binary, book, claims, write=lambda writer, data: (writer.write(data), writer.close())):
    """What it writes on standard output and on standard error."""
    with tempfile.TemporaryDirectory() as name, tempfile.TemporaryFile() as errors:
        room = pathlib.Path(name)
        put_book(room, book)
        with subprocess.Popen([binary], cwd=room, stdin=subprocess.PIPE, stdout=subprocess.PIPE, stderr=errors) as program:
            try:
                write(program.stdin, claims)
            except BrokenPipeError:
                pass  # it reads no more than it needs
            text = program.stdout.read()
            program.wait(60)
        errors.seek(0)
        return text, errors.read()


def limited():
    """Files of at most 100 bytes; a write beyond them fails, and does not end the program."""
    signal.signal(signal.SIGXFSZ, signal.SIG_IGN)
    resource.setrlimit(resource.RLIMIT_FSIZE, (100, 100))


def told(binary, redirection, book, claims, prepare=None):
    """Runs it in a shell with standard output led elsewhere: whether it comes to its end, what it writes on standard error, and what the file 'page' has then."""
    with tempfile.TemporaryDirectory() as name:
        room = pathlib.Path(name)
        (room / "claims").write_bytes(claims)
        put_book(room, book)
        command = f'"$0" < claims {redirection}'
        run = subprocess.run(["sh", "-c", command, binary], cwd=room, timeout=60, check=False, stderr=subprocess.PIPE, preexec_fn=prepare)
        page = room / "page"
        return run.returncode >= 0, run.stderr, page.read_bytes() if page.exists() else b""


def unwritten(session, asked):
    """Where the page goes, what is told of it, what of it is written, and the book and the claims."""
    full, many = run_of(FULL), run_of(many_claims(4096))
    no_space, bad, too_large = (f"standard output: {words}\n".encode() for words in ("No space left on device", "Bad file descriptor", "File too large"))
    yield "a full device", "> /dev/full", None, no_space, b"", session, asked
    yield "a long page to a full device", "> /dev/full", None, no_space, b"", full, many
    yield "a refusal to a full device", "> /dev/full", None, no_space, b"", session[:-1], asked
    yield "a closed standard output", ">&-", None, bad, b"", session, asked
    yield "closed standard output and error", ">&- 2>&-", None, b"", b"", session, asked
    yield "a part of the page", "> page", limited, too_large, page(SESSION, CLAIMS).encode()[:100], session, asked
    yield "the whole page", "> page", None, b"", page(SESSION, CLAIMS).encode(), session, asked


def main():
    binary = str(pathlib.Path(sys.argv[1] if len(sys.argv) > 1 else ROOT / "crates" / "query" / "out" / "query").resolve())
    passed = failed = 0

    def count(name, good, text=""):
        nonlocal passed, failed
        passed, failed = passed + good, failed + (not good)
        print(f"{'ok  ' if good else 'FAIL'} {name}" + ("" if good else f": {text[:200]!r}"))

    for name, book, claims, expected in cases():
        text, errors = printed(binary, book, claims)
        count(name, text == expected.encode() and errors == b"", text + errors)
    session, asked = run_of(SESSION), run_of(CLAIMS)
    text, errors = printed(binary, session, asked, slow)
    count("claims from a slow pipe", text == page(SESSION, CLAIMS).encode() and errors == b"", text + errors)
    for name, redirection, prepare, words, written, book, claims in unwritten(session, asked):
        ended, errors, text = told(binary, redirection, book, claims, prepare)
        count(name, ended and errors == words and text == written, errors + text)
    print(f"{passed} passed, {failed} failed")
    return 0 if failed == 0 else 1


if __name__ == "__main__":
    sys.exit(main())
