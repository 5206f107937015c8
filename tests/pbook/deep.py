"""The deepest books, the longest text, chain and page, with 7,168 KiB of stack."""
import reference as ref
from lab import stack
from reference import APART, MEETS, NOTPART, PART, packed, shown

KIB = 7168
LAST = 2047


def ring(first, count):
    return [(PART, first + i, first + (i + 1) % count) for i in range(count)]


def shapes():
    """bench/stack.c's."""
    yield "line", [(PART, a, a - 1) for a in range(1, LAST + 1)]
    yield "ladder", sorted({(PART, a, max(0, (a - 1) // 2 * 2 - i)) for a in range(1, LAST + 1) for i in range(2)})
    yield "worst order", [(PART, a, a + 1) for a in range(1, LAST)]
    yield "circles of two", [pair for a in range(1, LAST, 2) for pair in (*ring(a, 2), *([(PART, a, a - 2)] if a > 2 else []))]
    yield "one circle", ring(1, LAST)


def filled(facts):
    """8,192 records that the shape allows: what lies in a piece MEETS it, and all lie in 0."""
    more = [(MEETS, a, 0) for a in range(LAST + 1)] + [(MEETS, 0, a) for a in range(1, LAST + 1)] + [(MEETS, a, a) for a in range(1, LAST + 1)] + [(PART, a, 0) for a in range(1, LAST + 1)]
    seen = set(facts)
    facts = [*facts, *(fact for fact in more if fact not in seen)]
    return [(kind, 0, a, b) for kind, a, b in facts[:8192]]


def run(lab, name, begins, room, *words, given=b"", ends=None):
    out, err, status = lab.run(room, *words, given=given, prepare=stack(KIB))
    lab.count(name, out.startswith(begins) and err == b"" and status == 0 and (ends is None or out.endswith(ends)), (words[:3], out[:100], out[-100:], err, status))
    return out


def long_text(records):
    """The book as a text of 524,288 bytes: its last line is a long comment."""
    text = shown(records).encode()
    return text + b"#" * (524288 - len(text))


def all_deep(lab):
    for name, facts in shapes():
        room = lab.room()
        records = filled(facts)
        full = len(records)
        (room / "b.rec").write_bytes(packed(records))
        (room / "b.txt").write_bytes(long_text(records))
        claims = "".join(f"{('PART', 'APART', 'MEETS', 'NOTPART')[i % 4]} {LAST - i % 2000} {1 + i % 5} {'sheets' if i % 2 else 'all'}\n" for i in range(4096)).encode()
        claims += b"#" * (524288 - len(claims))
        log = "".join(f"{i % 2048}\n" for i in range(32768)).encode()
        log += b"#" * (524288 - len(log))
        bad = packed([*records[:-1], (NOTPART, 0, *facts[0][1:])])
        (room / "bad.rec").write_bytes(bad)
        (room / "bad.txt").write_bytes(long_text(ref.unpacked(bad)))
        for book, clash in (("b.rec", "bad.rec"), ("b.txt", "bad.txt")):
            run(lab, f"{name}: check", b"PIECES 2048 NODES ", room, "check", book)
            run(lab, f"{name}: check, refused", b"REFUSED 14 8191 ", room, "check", clash)
            run(lab, f"{name}: ask", b"PIECES 2048 NODES ", room, "ask", book, given=claims, ends=b"\n")
            run(lab, f"{name}: ask, words", b"PIECES 2048 NODES ", room, "ask", book, "NOTPART", LAST, "1", "sheets")
            run(lab, f"{name}: inside", b"PIECES ", room, "inside", book, "1")
            run(lab, f"{name}: touching", b"PIECES 2048\n", room, "touching", book, "0", ends=b"\n2047\n")
            run(lab, f"{name}: apart", b"PIECES 0\n", room, "apart", book, "0")
            run(lab, f"{name}: grid", b"REFUSED 16 0 ", room, "grid", book)
            run(lab, f"{name}: replicates", b"0 0 0 YES\n", room, "replicates", book, given=log, ends=b"32767 2047 0 NO\n")
            run(lab, f"{name}: compare", b"TOGETHER YES\n", room, "compare", book, book, given=claims, ends=b"SAME\n")
            run(lab, f"{name}: show", shown(records).encode()[:1000], room, "show", book, ends=shown(records).encode()[-1000:])
            run(lab, f"{name}: why, refused", b"REFUSED 14 8191 ", room, "why", clash)
            run(lab, f"{name}: why of a sound book", b"PIECES 2048 ", room, "why", book)
            chain = run(lab, f"{name}: why", f"NOTPART {LAST} 1".encode(), room, "why", book, "NOTPART", LAST, "1")
            (room / "chain").write_bytes(chain)
            run(lab, f"{name}: verify", b"FAILS\n" if b"OPEN" in chain else b"PASSES\n", room, "verify", book, "chain")
            run(lab, f"{name}: pack", f"RECORDS {full} PIECES 2048\n".encode(), room, "pack", book, "out")
            lab.count(f"{name}: packed", (room / "out").read_bytes() == packed(records))
            former = f"RECORDS {full} PIECES 2048\n" if name in ("line", "ladder") else "REFUSED 8 "
            run(lab, f"{name}: convert", former.encode(), room, "convert", book, "out")
        (room / "c.rec").write_bytes(packed(records[:8191]))
        run(lab, f"{name}: add", b"RECORDS 8192 PIECES 2048\n" if full == 8192 else b"RECORDS ", room, "add", "c.rec", "meets", "0", "0", "scanner")
        run(lab, f"{name}: withdraw", b"RECORDS 8191 PIECES 2048\n" if full == 8192 else b"RECORDS ", room, "withdraw", "c.rec", min(full, 8191))
        run(lab, f"{name}: add, refused", b"REFUSED 14 8191 " if full == 8192 else b"REFUSED 14 ", room, "add", "c.rec", "notpart", facts[0][1], facts[0][2])
        run(lab, f"{name}: new", b"RECORDS 0 PIECES 1\n", room, "new", "n.rec")
    longest(lab)
    lab.group("deep books with 7,168 KiB of stack")


def longest(lab):
    """Long chains: the most steps that `verify` takes, and one more; a long page of `why`."""
    room = lab.room()
    (room / "b.rec").write_bytes(packed([(MEETS, 0, LAST, LAST)]))

    def chain(steps):
        lines = [f"{i} PART {LAST} {LAST} RULE c\n" for i in range(steps - 1)]
        return f"MEETS {LAST} {LAST} FOLLOWS\n" + "".join(lines) + f"{steps - 1} MEETS {LAST} {LAST} RULE e'\n"

    for steps, said in ((16400, b"PASSES\n"), (16401, b"FAILS\n"), (60000, b"FAILS\n")):
        (room / "chain").write_text(chain(steps))
        run(lab, f"a chain of {steps} steps", said, room, "verify", "b.rec", "chain", ends=said)
    (room / "chain").write_bytes(b"MEETS 1 1 FOLLOWS\n" + b"0" * 2000000)
    run(lab, "a chain of two million bytes", b"FAILS\n", room, "verify", "b.rec", "chain")
    # NOTPART a b by d': a path from each of three pieces to the next fact's
    third = 680
    lines = [[first + i for i in range(third)] for first in (1, 1 + third, 1 + 2 * third)]
    facts = [(PART, a, b) for line in lines for a, b in zip(line, line[1:])] + [(MEETS, lines[0][0], lines[1][0]), (APART, lines[1][-1], lines[2][-1])]
    (room / "b.rec").write_bytes(packed((kind, 0, a, b) for kind, a, b in facts))
    page = run(lab, "a long chain", f"NOTPART {lines[0][-1]} {lines[2][0]} FOLLOWS\n".encode(), room, "why", "b.rec", "NOTPART", lines[0][-1], lines[2][0])
    lab.count("a long chain is long", len(page) > 100000, len(page))
    (room / "chain").write_bytes(page)
    run(lab, "a long chain verifies", b"PASSES\n", room, "verify", "b.rec", "chain")
    (room / "chain").write_bytes(page[:-3] + b"0\n")
    run(lab, "a long chain whose last step is another", b"FAILS\n", room, "verify", "b.rec", "chain")
