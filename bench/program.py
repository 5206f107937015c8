#!/usr/bin/env python3
"""The programs' processor time, in milliseconds: `pbook` at full size, beside `query` where both answer the same claims. Prints a table.

    program.py      runs crates/pbook/out/pbook and crates/query/out/query, which `rt run` in their folders makes
"""
import os
import pathlib
import resource
import statistics
import subprocess
import tempfile

CRATES = pathlib.Path(__file__).resolve().parent.parent / "crates"
PIECES, RECORDS, CLAIMS, ROUNDS = 2048, 8192, 4096, 15
KINDS = ("", "part", "apart", "meets", "notpart")


def six(kind, a, b):
    return bytes((kind, 0, a % 256, a // 256, b % 256, b // 256))


def book(container):
    """2,048 pieces, each in its container, and MEETS of parts with what holds them up to 8,192 records."""
    facts = [(1, a, container(a)) for a in range(1, PIECES)]
    facts += [(3, a, 0) for a in range(PIECES)] + [(3, 0, a) for a in range(1, PIECES)] + [(3, a, a) for a in range(1, PIECES)]
    return facts[:RECORDS]


def spent(words, folder, given):
    """Milliseconds of one run."""
    before = resource.getrusage(resource.RUSAGE_CHILDREN)
    subprocess.run(words, cwd=folder, input=given, stdout=subprocess.DEVNULL, check=True)
    after = resource.getrusage(resource.RUSAGE_CHILDREN)
    return 1000 * (after.ru_utime + after.ru_stime - before.ru_utime - before.ru_stime)


def main():
    tree, line = book(lambda a: (a - 1) // 3), book(lambda a: a - 1)
    claims = b"".join(six(1 + i % 4, i * 7 % PIECES, i * 13 % PIECES) for i in range(CLAIMS))
    with tempfile.TemporaryDirectory() as folder:
        room = pathlib.Path(folder)
        for name, facts in (("book.rec", tree), ("line.rec", line)):
            (room / name).write_bytes(b"".join(six(*f) for f in facts))
        (room / "tree.txt").write_text("".join(f"{KINDS[k]} {a} {b}\n" for k, a, b in tree))
        pbook, query = (str(CRATES / name / "out" / name) for name in ("pbook", "query"))
        rows = (
            ("`query`, 4,096 claims", [query], claims),
            ("`pbook ask`, the same", [pbook, "ask", "book.rec"], claims),
            ("`pbook check`, 8,192 records", [pbook, "check", "book.rec"], b""),
            ("`pbook check`, the same as text", [pbook, "check", "tree.txt"], b""),
            ("`pbook show`, 8,192 records", [pbook, "show", "book.rec"], b""),
            ("`pbook why`, along 2,047 pieces", [pbook, "why", "line.rec", "part", str(PIECES - 1), "1"], b""),
            ("`pbook help`", [pbook, "help"], b""),
        )
        times = {row[0]: [] for row in rows}
        for _ in range(ROUNDS):
            for name, words, given in rows:
                times[name].append(spent(words, room, given))
    print("| command | ms |\n|---|---|")
    for name in times:
        print(f"| {name} | {statistics.median(times[name]):.1f} |")


if __name__ == "__main__":
    os.umask(0o077)
    main()
